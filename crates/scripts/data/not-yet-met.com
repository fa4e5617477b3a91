;; Not yet met: for each player the numbers of those whom he or she may still
;; be paired with. There may be 32 players.

;; The crosstable comes in: a line for each player, with a name, a rating and
;; an entry for each round. An entry is an opponent's number, a colour and a
;; result, as 7w1, or a letter for a round without an opponent. This part is
;; the same in every script of the cookbook.

(datatype rounds
  ([game (int int int rounds)]    ;; opponent, colour, result
   [free (int rounds)]            ;; letter
   [done ()]))

(datatype name
  ([letters (int int int)]))      ;; twelve bytes at most, four in each int

(datatype table
  ([player (name int rounds table)]
   [nobody ()]))

(datatype number
  ([digits (int int)]))           ;; what they come to, and the byte behind

(val white 119)
(val black 98)

(val won 49)                      ;; 1
(val drawn 61)                    ;; =
(val lost 48)                     ;; 0
(val forfeit-won 43)              ;; +
(val forfeit-lost 45)             ;; -
(val bye 85)                      ;; U, the pairing's bye: a point
(val half-bye 72)                 ;; H, asked for: half a point
(val absent 90)                   ;; Z: no point

(: is-digit (-> (int) bool))
(define is-digit (byte)
  (and (>= byte 48) (<= byte 57)))

(: read-number (-> (int int) number))
(define read-number (byte so-far)
  (if (is-digit byte)
      (read-number (in) (+ (* so-far 10) (- byte 48)))
      (digits so-far byte)))

(: read-name (-> (int int int int int) name))
(define read-name (byte count one two three)
  (if (<= byte 32)
      (letters one two three)
      (if (< count 4)
          (read-name (in) (+ count 1) (| (<< one 8) byte) two three)
          (if (< count 8)
              (read-name (in) (+ count 1) one (| (<< two 8) byte) three)
              (if (< count 12)
                  (read-name (in) (+ count 1) one two (| (<< three 8) byte))
                  (read-name (in) count one two three))))))

(: read-rounds (-> (int) rounds))
(define read-rounds (byte)
  (if (is-digit byte)
      (case (read-number byte 0)
        [(digits opponent colour)
         (game opponent colour (in) (read-rounds (in)))])
      (if (=i byte 32)
          (read-rounds (in))
          (if (< byte 32)         ;; the line ends, or the input
              (done)
              (free byte (read-rounds (in)))))))

(: read-player (-> (name) table))
(define read-player (who)
  (case (read-number (in) 0)
    [(digits rating behind)
     (player who rating (read-rounds behind) (read-table (in)))]))

(: read-table (-> (int) table))
(define read-table (byte)
  (if (< byte 0)
      (nobody)
      (if (<= byte 32)            ;; an empty line
          (read-table (in))
          (read-player (read-name byte 0 0 0 0)))))

;; The rule: a set of players is an int, with a bit for each.

(: bit (-> (int) int))
(define bit (place)
  (<< 1 (- place 1)))

(: has (-> (int int) bool))
(define has (set place)
  (not (=i (& set (bit place)) 0)))

(: met (-> (rounds) int))
(define met (played)
  (case played
    [(game opponent _ _ rest) (| (bit opponent) (met rest))]
    [(free _ rest) (met rest)]
    [(done) 0]))

(: how-many (-> (table) int))
(define how-many (players)
  (case players
    [(player _ _ _ others) (+ 1 (how-many others))]
    [(nobody) 0]))

(: print-set (-> (int int int) unit))
(define print-set (set place count)
  (if (> place count)
      unit
      (begin
        (if (has set place)
            (begin
              (print-sym ' ')
              (print-int place))
            unit)
        (print-set set (+ place 1) count))))

(: show (-> (table int int) unit))
(define show (players place count)
  (case players
    [(player _ _ played others)
     (begin
       (print-int place)
       (print-sym ':')
       (print-set (& (~ (met played)) (^ -1 (bit place))) 1 count)
       (print-newline)
       (show others (+ place 1) count))]
    [(nobody) unit]))

(: start (-> (table) unit))
(define start (players)
  (show (dup players) 1 (how-many players)))

(: main (-> () unit))
(define main ()
  (start (read-table (in))))
