;; The first round: the top half of the list meets the bottom half, one by one.
;; White goes to the top player on odd boards. The last of an odd list has a
;; bye.

;; The crosstable comes in: a line for each player, with a name, a rating and
;; an entry for each round. An entry is an opponent's number, a colour and a
;; result, as 7w1, or a letter for a round without an opponent. This part is
;; the same in every script of the cookbook.

(datatype rounds
  ([game (int int int rounds)]    ;; opponent, colour, result
   [free (int rounds)]            ;; letter
   [done ()]))

(datatype name
  ([letters (int int int)]))      ;; twelve bytes at most, four in each int

(datatype table
  ([player (name int rounds table)]
   [nobody ()]))

(datatype number
  ([digits (int int)]))           ;; what they come to, and the byte behind

(val white 119)
(val black 98)

(val won 49)                      ;; 1
(val drawn 61)                    ;; =
(val lost 48)                     ;; 0
(val forfeit-won 43)              ;; +
(val forfeit-lost 45)             ;; -
(val bye 85)                      ;; U, the pairing's bye: a point
(val half-bye 72)                 ;; H, asked for: half a point
(val absent 90)                   ;; Z: no point

(: is-digit (-> (int) bool))
(define is-digit (byte)
  (and (>= byte 48) (<= byte 57)))

(: read-number (-> (int int) number))
(define read-number (byte so-far)
  (if (is-digit byte)
      (read-number (in) (+ (* so-far 10) (- byte 48)))
      (digits so-far byte)))

(: read-name (-> (int int int int int) name))
(define read-name (byte count one two three)
  (if (<= byte 32)
      (letters one two three)
      (if (< count 4)
          (read-name (in) (+ count 1) (| (<< one 8) byte) two three)
          (if (< count 8)
              (read-name (in) (+ count 1) one (| (<< two 8) byte) three)
              (if (< count 12)
                  (read-name (in) (+ count 1) one two (| (<< three 8) byte))
                  (read-name (in) count one two three))))))

(: read-rounds (-> (int) rounds))
(define read-rounds (byte)
  (if (is-digit byte)
      (case (read-number byte 0)
        [(digits opponent colour)
         (game opponent colour (in) (read-rounds (in)))])
      (if (=i byte 32)
          (read-rounds (in))
          (if (< byte 32)         ;; the line ends, or the input
              (done)
              (free byte (read-rounds (in)))))))

(: read-player (-> (name) table))
(define read-player (who)
  (case (read-number (in) 0)
    [(digits rating behind)
     (player who rating (read-rounds behind) (read-table (in)))]))

(: read-table (-> (int) table))
(define read-table (byte)
  (if (< byte 0)
      (nobody)
      (if (<= byte 32)            ;; an empty line
          (read-table (in))
          (read-player (read-name byte 0 0 0 0)))))

;; A name goes out, byte by byte. Bytes that are 0 were never there.

(: print-word (-> (int int) unit))
(define print-word (word shift)
  (let ([letter (& (>> word shift) 255)])
    (begin
      (if (=i letter 0) unit (print-ascii letter))
      (if (=i shift 0) unit (print-word word (- shift 8))))))

(: print-name (-> (name) unit))
(define print-name (who)
  (case who
    [(letters one two three)
     (begin
       (print-word one 24)
       (print-word two 24)
       (print-word three 24))]))

;; The rule: the table is cut, and its halves are walked side by side.

(: how-many (-> (table) int))
(define how-many (players)
  (case players
    [(player _ _ _ others) (+ 1 (how-many others))]
    [(nobody) 0]))

(: without (-> (int table) table))
(define without (count players)
  (if (=i count 0)
      players
      (case players
        [(player _ _ _ others) (without (- count 1) others)]
        [(nobody) (nobody)])))

(: show-board (-> (int name name) unit))
(define show-board (board one two)
  (begin
    (print-int board)
    (print-sym '. ')
    (print-name one)
    (print-sym ' - ')
    (print-name two)
    (print-newline)))

(: pair (-> (int int table table) unit))
(define pair (board boards top bottom)
  (if (> board boards)
      (case bottom
        [(player who _ _ _)
         (begin
           (print-name who)
           (print-sym ' has a bye')
           (print-newline))]
        [(nobody) unit])
      (case top
        [(player one _ _ tops)
         (case bottom
           [(player two _ _ bottoms)
            (begin
              (if (=i (% board 2) 1)
                  (show-board board one two)
                  (show-board board two one))
              (pair (+ board 1) boards tops bottoms))]
           [(nobody) unit])]
        [(nobody) unit])))

(: start (-> (table) unit))
(define start (players)
  (let ([boards (/ (how-many (dup players)) 2)])
    (pair 1 boards (dup players) (without boards players))))

(: main (-> () unit))
(define main ()
  (start (read-table (in))))
