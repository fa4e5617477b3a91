;; The next bye: if the number of players is odd, it goes to the one with the
;; fewest points, of these to the lowest rating, but never to somebody who has
;; had a bye or won by forfeit.

;; The crosstable comes in: a line for each player, with a name, a rating and
;; an entry for each round. An entry is an opponent's number, a colour and a
;; result, as 7w1, or a letter for a round without an opponent. This part is
;; the same in every script of the cookbook.

(datatype rounds
  ([game (int int int rounds)]    ;; opponent, colour, result
   [free (int rounds)]            ;; letter
   [done ()]))

(datatype name
  ([letters (int int int)]))      ;; twelve bytes at most, four in each int

(datatype table
  ([player (name int rounds table)]
   [nobody ()]))

(datatype number
  ([digits (int int)]))           ;; what they come to, and the byte behind

(val white 119)
(val black 98)

(val won 49)                      ;; 1
(val drawn 61)                    ;; =
(val lost 48)                     ;; 0
(val forfeit-won 43)              ;; +
(val forfeit-lost 45)             ;; -
(val bye 85)                      ;; U, the pairing's bye: a point
(val half-bye 72)                 ;; H, asked for: half a point
(val absent 90)                   ;; Z: no point

(: is-digit (-> (int) bool))
(define is-digit (byte)
  (and (>= byte 48) (<= byte 57)))

(: read-number (-> (int int) number))
(define read-number (byte so-far)
  (if (is-digit byte)
      (read-number (in) (+ (* so-far 10) (- byte 48)))
      (digits so-far byte)))

(: read-name (-> (int int int int int) name))
(define read-name (byte count one two three)
  (if (<= byte 32)
      (letters one two three)
      (if (< count 4)
          (read-name (in) (+ count 1) (| (<< one 8) byte) two three)
          (if (< count 8)
              (read-name (in) (+ count 1) one (| (<< two 8) byte) three)
              (if (< count 12)
                  (read-name (in) (+ count 1) one two (| (<< three 8) byte))
                  (read-name (in) count one two three))))))

(: read-rounds (-> (int) rounds))
(define read-rounds (byte)
  (if (is-digit byte)
      (case (read-number byte 0)
        [(digits opponent colour)
         (game opponent colour (in) (read-rounds (in)))])
      (if (=i byte 32)
          (read-rounds (in))
          (if (< byte 32)         ;; the line ends, or the input
              (done)
              (free byte (read-rounds (in)))))))

(: read-player (-> (name) table))
(define read-player (who)
  (case (read-number (in) 0)
    [(digits rating behind)
     (player who rating (read-rounds behind) (read-table (in)))]))

(: read-table (-> (int) table))
(define read-table (byte)
  (if (< byte 0)
      (nobody)
      (if (<= byte 32)            ;; an empty line
          (read-table (in))
          (read-player (read-name byte 0 0 0 0)))))

;; What a result or a letter is worth, in half points.

(: worth (-> (int) int))
(define worth (mark)
  (if (or (=i mark won) (or (=i mark forfeit-won) (=i mark bye)))
      2
      (if (or (=i mark drawn) (=i mark half-bye))
          1
          0)))

(: points (-> (rounds) int))
(define points (played)
  (case played
    [(game _ _ result rest) (+ (worth result) (points rest))]
    [(free letter rest) (+ (worth letter) (points rest))]
    [(done) 0]))

;; A name goes out, byte by byte. Bytes that are 0 were never there.

(: print-word (-> (int int) unit))
(define print-word (word shift)
  (let ([letter (& (>> word shift) 255)])
    (begin
      (if (=i letter 0) unit (print-ascii letter))
      (if (=i shift 0) unit (print-word word (- shift 8))))))

(: print-name (-> (name) unit))
(define print-name (who)
  (case who
    [(letters one two three)
     (begin
       (print-word one 24)
       (print-word two 24)
       (print-word three 24))]))

;; The rule.

(datatype choice
  ([chosen (int int name)]        ;; points, rating
   [no-one ()]))

(: point-for-nothing (-> (rounds) bool))
(define point-for-nothing (played)
  (case played
    [(game _ _ result rest) (or (=i result forfeit-won) (point-for-nothing rest))]
    [(free letter rest) (or (=i letter bye) (point-for-nothing rest))]
    [(done) false]))

(: better (-> (name int int choice) choice))
(define better (who rating score best)
  (case best
    [(no-one) (chosen score rating who)]
    [(chosen its-score its-rating its-name)
     (if (or (< score its-score)
             (and (=i score its-score) (< rating its-rating)))
         (chosen score rating who)
         (chosen its-score its-rating its-name))]))

(: choose (-> (table choice) choice))
(define choose (players best)
  (case players
    [(player who rating played others)
     (choose others
             (if (point-for-nothing (dup played))
                 best
                 (better who rating (points played) best)))]
    [(nobody) best]))

(: how-many (-> (table) int))
(define how-many (players)
  (case players
    [(player _ _ _ others) (+ 1 (how-many others))]
    [(nobody) 0]))

(: decide (-> (table) unit))
(define decide (players)
  (if (=i (% (how-many (dup players)) 2) 0)
      (print-sym 'nobody needs a bye')
      (case (choose players (no-one))
        [(chosen _ _ who) (print-name who)]
        [(no-one) (print-sym 'everybody has had one')])))

(: main (-> () unit))
(define main ()
  (begin
    (decide (read-table (in)))
    (print-newline)))
