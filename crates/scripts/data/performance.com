;; Performance: the average rating of the opponents met at the board, and the
;; difference that belongs to the share of points scored against them.

;; The crosstable comes in: a line for each player, with a name, a rating and
;; an entry for each round. An entry is an opponent's number, a colour and a
;; result, as 7w1, or a letter for a round without an opponent. This part is
;; the same in every script of the cookbook.

(datatype rounds
  ([game (int int int rounds)]    ;; opponent, colour, result
   [free (int rounds)]            ;; letter
   [done ()]))

(datatype name
  ([letters (int int int)]))      ;; twelve bytes at most, four in each int

(datatype table
  ([player (name int rounds table)]
   [nobody ()]))

(datatype number
  ([digits (int int)]))           ;; what they come to, and the byte behind

(val white 119)
(val black 98)

(val won 49)                      ;; 1
(val drawn 61)                    ;; =
(val lost 48)                     ;; 0
(val forfeit-won 43)              ;; +
(val forfeit-lost 45)             ;; -
(val bye 85)                      ;; U, the pairing's bye: a point
(val half-bye 72)                 ;; H, asked for: half a point
(val absent 90)                   ;; Z: no point

(: is-digit (-> (int) bool))
(define is-digit (byte)
  (and (>= byte 48) (<= byte 57)))

(: read-number (-> (int int) number))
(define read-number (byte so-far)
  (if (is-digit byte)
      (read-number (in) (+ (* so-far 10) (- byte 48)))
      (digits so-far byte)))

(: read-name (-> (int int int int int) name))
(define read-name (byte count one two three)
  (if (<= byte 32)
      (letters one two three)
      (if (< count 4)
          (read-name (in) (+ count 1) (| (<< one 8) byte) two three)
          (if (< count 8)
              (read-name (in) (+ count 1) one (| (<< two 8) byte) three)
              (if (< count 12)
                  (read-name (in) (+ count 1) one two (| (<< three 8) byte))
                  (read-name (in) count one two three))))))

(: read-rounds (-> (int) rounds))
(define read-rounds (byte)
  (if (is-digit byte)
      (case (read-number byte 0)
        [(digits opponent colour)
         (game opponent colour (in) (read-rounds (in)))])
      (if (=i byte 32)
          (read-rounds (in))
          (if (< byte 32)         ;; the line ends, or the input
              (done)
              (free byte (read-rounds (in)))))))

(: read-player (-> (name) table))
(define read-player (who)
  (case (read-number (in) 0)
    [(digits rating behind)
     (player who rating (read-rounds behind) (read-table (in)))]))

(: read-table (-> (int) table))
(define read-table (byte)
  (if (< byte 0)
      (nobody)
      (if (<= byte 32)            ;; an empty line
          (read-table (in))
          (read-player (read-name byte 0 0 0 0)))))

;; What a result or a letter is worth, in half points.

(: worth (-> (int) int))
(define worth (mark)
  (if (or (=i mark won) (or (=i mark forfeit-won) (=i mark bye)))
      2
      (if (or (=i mark drawn) (=i mark half-bye))
          1
          0)))

(datatype ints
  ([more (int ints)]
   [none ()]))

;; The entry with this number, from 1 on, or 0.

(: nth (-> (ints int) int))
(define nth (entries place)
  (case entries
    [(more first rest) (if (=i place 1) first (nth rest (- place 1)))]
    [(none) 0]))

;; Everybody's rating, in the order of the table.

(: ratings (-> (table) ints))
(define ratings (players)
  (case players
    [(player _ rating _ others) (more rating (ratings others))]
    [(nobody) (none)]))

;; A name goes out, byte by byte. Bytes that are 0 were never there.

(: print-word (-> (int int) unit))
(define print-word (word shift)
  (let ([letter (& (>> word shift) 255)])
    (begin
      (if (=i letter 0) unit (print-ascii letter))
      (if (=i shift 0) unit (print-word word (- shift 8))))))

(: print-name (-> (name) unit))
(define print-name (who)
  (case who
    [(letters one two three)
     (begin
       (print-word one 24)
       (print-word two 24)
       (print-word three 24))]))

;; Whether a game was played at the board.

(: at-board (-> (int) bool))
(define at-board (result)
  (or (=i result won) (or (=i result drawn) (=i result lost))))

;; The differences for a share of 50, 51 .. 100 in a hundred. A val is written
;; in wherever it is named, so each look-up has a list of its own.

(val differences
  (more 0 (more 7 (more 14 (more 21 (more 29 (more 36 (more 43 (more 50
  (more 57 (more 65 (more 72 (more 80 (more 87 (more 95 (more 102 (more 110
  (more 117 (more 125 (more 133 (more 141 (more 149 (more 158 (more 166
  (more 175 (more 184 (more 193 (more 202 (more 211 (more 220 (more 230
  (more 240 (more 251 (more 262 (more 273 (more 284 (more 296 (more 309
  (more 322 (more 336 (more 351 (more 366 (more 383 (more 401 (more 422
  (more 444 (more 470 (more 501 (more 538 (more 589 (more 677 (more 800
  (none)))))))))))))))))))))))))))))))))))))))))))))))))))))

;; The rule.

(datatype sum
  ([sum (int int int)]))          ;; games, half points, ratings

(: opposition (-> (rounds ints) sum))
(define opposition (played all)
  (case played
    [(game opponent _ result rest)
     (if (at-board result)
         (case (opposition rest (dup all))
           [(sum count scored total)
            (sum (+ count 1) (+ scored (worth result)) (+ total (nth all opponent)))])
         (opposition rest all))]
    [(free _ rest) (opposition rest all)]
    [(done) (sum 0 0 0)]))

;; A share below a half counts downwards from the other side.

(: difference (-> (int) int))
(define difference (share)
  (if (< share 50)
      (neg (nth differences (- 51 share)))
      (nth differences (- share 49))))

(: rounded (-> (int int) int))
(define rounded (dividend divisor)
  (/ (+ (* 2 dividend) divisor) (* 2 divisor)))

(: print-performance (-> (sum) unit))
(define print-performance (results)
  (case results
    [(sum count scored total)
     (if (=i count 0)
         (print-sym '-')
         (print-int (+ (rounded total count)
                       (difference (rounded (* 50 scored) count)))))]))

(: show (-> (table ints) unit))
(define show (players all)
  (case players
    [(player who _ played others)
     (begin
       (print-name who)
       (print-sym ' ')
       (print-performance (opposition played (dup all)))
       (print-newline)
       (show others all))]
    [(nobody) unit]))

(: start (-> (table) unit))
(define start (players)
  (show (dup players) (ratings players)))

(: main (-> () unit))
(define main ()
  (start (read-table (in))))
