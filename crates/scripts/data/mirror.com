;; The table as its own mirror: a game must stand in both players' lines, in
;; one round, with different colours and results that belong together. Out
;; come the entries that have no counterpart.

;; The crosstable comes in: a line for each player, with a name, a rating and
;; an entry for each round. An entry is an opponent's number, a colour and a
;; result, as 7w1, or a letter for a round without an opponent. This part is
;; the same in every script of the cookbook.

(datatype rounds
  ([game (int int int rounds)]    ;; opponent, colour, result
   [free (int rounds)]            ;; letter
   [done ()]))

(datatype name
  ([letters (int int int)]))      ;; twelve bytes at most, four in each int

(datatype table
  ([player (name int rounds table)]
   [nobody ()]))

(datatype number
  ([digits (int int)]))           ;; what they come to, and the byte behind

(val white 119)
(val black 98)

(val won 49)                      ;; 1
(val drawn 61)                    ;; =
(val lost 48)                     ;; 0
(val forfeit-won 43)              ;; +
(val forfeit-lost 45)             ;; -
(val bye 85)                      ;; U, the pairing's bye: a point
(val half-bye 72)                 ;; H, asked for: half a point
(val absent 90)                   ;; Z: no point

(: is-digit (-> (int) bool))
(define is-digit (byte)
  (and (>= byte 48) (<= byte 57)))

(: read-number (-> (int int) number))
(define read-number (byte so-far)
  (if (is-digit byte)
      (read-number (in) (+ (* so-far 10) (- byte 48)))
      (digits so-far byte)))

(: read-name (-> (int int int int int) name))
(define read-name (byte count one two three)
  (if (<= byte 32)
      (letters one two three)
      (if (< count 4)
          (read-name (in) (+ count 1) (| (<< one 8) byte) two three)
          (if (< count 8)
              (read-name (in) (+ count 1) one (| (<< two 8) byte) three)
              (if (< count 12)
                  (read-name (in) (+ count 1) one two (| (<< three 8) byte))
                  (read-name (in) count one two three))))))

(: read-rounds (-> (int) rounds))
(define read-rounds (byte)
  (if (is-digit byte)
      (case (read-number byte 0)
        [(digits opponent colour)
         (game opponent colour (in) (read-rounds (in)))])
      (if (=i byte 32)
          (read-rounds (in))
          (if (< byte 32)         ;; the line ends, or the input
              (done)
              (free byte (read-rounds (in)))))))

(: read-player (-> (name) table))
(define read-player (who)
  (case (read-number (in) 0)
    [(digits rating behind)
     (player who rating (read-rounds behind) (read-table (in)))]))

(: read-table (-> (int) table))
(define read-table (byte)
  (if (< byte 0)
      (nobody)
      (if (<= byte 32)            ;; an empty line
          (read-table (in))
          (read-player (read-name byte 0 0 0 0)))))

;; The rule.

(: rounds-of (-> (table int) rounds))
(define rounds-of (players place)
  (case players
    [(player _ _ played others)
     (if (=i place 1) played (rounds-of others (- place 1)))]
    [(nobody) (done)]))

(: answers (-> (int int) bool))
(define answers (result its-result)
  (if (=i result won)
      (=i its-result lost)
      (if (=i result lost)
          (=i its-result won)
          (if (=i result drawn)
              (=i its-result drawn)
              (if (=i result forfeit-won)
                  (=i its-result forfeit-lost)
                  (and (=i result forfeit-lost)
                       (or (=i its-result forfeit-won) (=i its-result forfeit-lost))))))))

;; Whether in that round of the other line there is the game with this player.

(: is-mirrored (-> (rounds int int int int) bool))
(define is-mirrored (its-rounds round place colour result)
  (case its-rounds
    [(game opponent its-colour its-result rest)
     (if (=i round 1)
         (and (=i opponent place)
              (and (not (=i colour its-colour)) (answers result its-result)))
         (is-mirrored rest (- round 1) place colour result))]
    [(free _ rest)
     (if (=i round 1) false (is-mirrored rest (- round 1) place colour result))]
    [(done) false]))

(: check-line (-> (rounds table int int) int))
(define check-line (played all place round)
  (case played
    [(game opponent colour result rest)
     (+ (if (is-mirrored (rounds-of (dup all) opponent) round place colour result)
            0
            (begin
              (print-sym 'player ')
              (print-int place)
              (print-sym ', round ')
              (print-int round)
              (print-newline)
              1))
        (check-line rest all place (+ round 1)))]
    [(free _ rest) (check-line rest all place (+ round 1))]
    [(done) 0]))

(: check-lines (-> (table table int) int))
(define check-lines (players all place)
  (case players
    [(player _ _ played others)
     (+ (check-line played (dup all) place 1)
        (check-lines others all (+ place 1)))]
    [(nobody) 0]))

(: start (-> (table) unit))
(define start (players)
  (begin
    (print-int (check-lines (dup players) players 1))
    (print-sym ' wrong')
    (print-newline)))

(: main (-> () unit))
(define main ()
  (start (read-table (in))))
