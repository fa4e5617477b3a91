; House rule: the players of a small crosstable in the order of their ratings, the highest first.
;
; Each line of the input is NAME RATING RESULTS, as in
;
;     Ada 1830 *1=
;
; where 1 is a win, = a draw, 0 a loss and * the player's own square. Blank lines are skipped.
; Of equal ratings the one that came first stays first.

; A name, byte by byte.
(datatype letters
  ([letter (int letters)]
   [no-letter ()]))

; Name, rating and half points of a player, and the players that follow.
(datatype players
  ([player (letters int int players)]
   [nobody ()]))

; Bytes of the input; no byte is left at -1.
(val newline 10)
(val space 32)
(val no-byte -1)

; Whether a byte ends a word: a blank, a newline or the input's end.
(: ends-word (-> (int) bool))
(define ends-word (b) (<= b space))

(: is-digit (-> (int) bool))
(define is-digit (b) (and (>= b 48) (<= b 57)))

; The name that begins with the byte b.
(: read-name (-> (int) letters))
(define read-name (b)
  (if (ends-word b)
      (no-letter)
      (letter b (read-name (in)))))

; The rating, from the number that its digits so far make.
(: read-rating (-> (int) int))
(define read-rating (number)
  (let ([b (in)])
    (if (is-digit b)
        (read-rating (+ (* number 10) (- b 48)))
        number)))

; Half points of one square: 1 is two, = is one.
(: worth (-> (int) int))
(define worth (b)
  (if (=i b 49) 2 (if (=i b 61) 1 0)))

; The half points of the rest of the line, and those so far.
(: read-results (-> (int) int))
(define read-results (halves)
  (let ([b (in)])
    (if (or (=i b newline) (=i b no-byte))
        halves
        (read-results (+ halves (worth b))))))

; Puts a player behind all that are rated as high or higher.
(: insert (-> (letters int int players) players))
(define insert (name rating halves table)
  (case table
    [(nobody) (player name rating halves (nobody))]
    [(player first rated points others)
     (if (> rating rated)
         (player name rating halves (player first rated points others))
         (player first rated points (insert name rating halves others)))]))

; The table with the players of the input added.
(: read-table (-> (players) players))
(define read-table (table)
  (let ([b (in)])
    (if (=i b no-byte)
        table
        (if (ends-word b)
            (read-table table)
            (let ([name (read-name b)]
                  [rating (read-rating 0)]
                  [halves (read-results 0)])
              (read-table (insert name rating halves table)))))))

(: print-name (-> (letters) unit))
(define print-name (word)
  (case word
    [(letter b more) (begin (print-ascii b) (print-name more))]
    [(no-letter) unit]))

(: print-points (-> (int) unit))
(define print-points (halves)
  (begin
    (print-int (/ halves 2))
    (if (=i (% halves 2) 1) (print-sym '.5') unit)))

; A line for each player, with the number that it has in the order.
(: print-table (-> (int players) unit))
(define print-table (number table)
  (case table
    [(player name rating halves others)
     (begin
       (print-int number)
       (print-sym '. ')
       (print-name name)
       (print-sym ', rated ')
       (print-int rating)
       (print-sym ', points ')
       (print-points halves)
       (print-newline)
       (print-table (+ number 1) others))]
    [(nobody) unit]))

(: main (-> () unit))
(define main ()
  (begin
    (print-sym 'The club\'s order by rating')
    (print-newline)
    (print-table 1 (read-table (nobody)))))
