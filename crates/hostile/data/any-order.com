;; Any order: one sort, which is handed the comparison as a function value.
;; Three lists come out: by points, by rating, by the number of rounds played.

;; The crosstable comes in: a line for each player, with a name, a rating and
;; an entry for each round. An entry is an opponent's number, a colour and a
;; result, as 7w1, or a letter for a round without an opponent. This part is
;; the same in every script of the cookbook.

(datatype rounds
  ([game (int int int rounds)]    ;; opponent, colour, result
   [free (int rounds)]            ;; letter
   [done ()]))

(datatype name
  ([letters (int int int)]))      ;; twelve bytes at most, four in each int

(datatype table
  ([player (name int rounds table)]
   [nobody ()]))

(datatype number
  ([digits (int int)]))           ;; what they come to, and the byte behind

(val white 119)
(val black 98)

(val won 49)                      ;; 1
(val drawn 61)                    ;; =
(val lost 48)                     ;; 0
(val forfeit-won 43)              ;; +
(val forfeit-lost 45)             ;; -
(val bye 85)                      ;; U, the pairing's bye: a point
(val half-bye 72)                 ;; H, asked for: half a point
(val absent 90)                   ;; Z: no point

(: is-digit (-> (int) bool))
(define is-digit (byte)
  (and (>= byte 48) (<= byte 57)))

(: read-number (-> (int int) number))
(define read-number (byte so-far)
  (if (is-digit byte)
      (read-number (in) (+ (* so-far 10) (- byte 48)))
      (digits so-far byte)))

(: read-name (-> (int int int int int) name))
(define read-name (byte count one two three)
  (if (<= byte 32)
      (letters one two three)
      (if (< count 4)
          (read-name (in) (+ count 1) (| (<< one 8) byte) two three)
          (if (< count 8)
              (read-name (in) (+ count 1) one (| (<< two 8) byte) three)
              (if (< count 12)
                  (read-name (in) (+ count 1) one two (| (<< three 8) byte))
                  (read-name (in) count one two three))))))

(: read-rounds (-> (int) rounds))
(define read-rounds (byte)
  (if (is-digit byte)
      (case (read-number byte 0)
        [(digits opponent colour)
         (game opponent colour (in) (read-rounds (in)))])
      (if (=i byte 32)
          (read-rounds (in))
          (if (< byte 32)         ;; the line ends, or the input
              (done)
              (free byte (read-rounds (in)))))))

(: read-player (-> (name) table))
(define read-player (who)
  (case (read-number (in) 0)
    [(digits rating behind)
     (player who rating (read-rounds behind) (read-table (in)))]))

(: read-table (-> (int) table))
(define read-table (byte)
  (if (< byte 0)
      (nobody)
      (if (<= byte 32)            ;; an empty line
          (read-table (in))
          (read-player (read-name byte 0 0 0 0)))))

;; What a result or a letter is worth, in half points.

(: worth (-> (int) int))
(define worth (mark)
  (if (or (=i mark won) (or (=i mark forfeit-won) (=i mark bye)))
      2
      (if (or (=i mark drawn) (=i mark half-bye))
          1
          0)))

(: points (-> (rounds) int))
(define points (played)
  (case played
    [(game _ _ result rest) (+ (worth result) (points rest))]
    [(free letter rest) (+ (worth letter) (points rest))]
    [(done) 0]))

;; A name goes out, byte by byte. Bytes that are 0 were never there.

(: print-word (-> (int int) unit))
(define print-word (word shift)
  (let ([letter (& (>> word shift) 255)])
    (begin
      (if (=i letter 0) unit (print-ascii letter))
      (if (=i shift 0) unit (print-word word (- shift 8))))))

(: print-name (-> (name) unit))
(define print-name (who)
  (case who
    [(letters one two three)
     (begin
       (print-word one 24)
       (print-word two 24)
       (print-word three 24))]))

;; The rule. A key is what a function makes of a rating and rounds.

(datatype keyed
  ([key (int name keyed)]
   [no-more ()]))

(: by-points (-> (int rounds) int))
(define by-points (_rating played) (points played))

(: by-rating (-> (int rounds) int))
(define by-rating (rating _played) rating)

(: by-games (-> (int rounds) int))
(define by-games (rating played)
  (case played
    [(game _ _ _ rest) (+ 1 (by-games rating rest))]
    [(free _ rest) (by-games rating rest)]
    [(done) 0]))

(: insert (-> (int name (-> (int int) bool) keyed) keyed))
(define insert (its-key who before list)
  (case list
    [(key first-key first rest)
     (if (before first-key its-key)
         (key first-key first (insert its-key who before rest))
         (key its-key who (key first-key first rest)))]
    [(no-more) (key its-key who (no-more))]))

(: sort (-> (table (-> (int rounds) int) (-> (int int) bool)) keyed))
(define sort (players key-of before)
  (case players
    [(player who rating played others)
     (insert (key-of rating played) who before (sort others key-of before))]
    [(nobody) (no-more)]))

(: show (-> (keyed) unit))
(define show (list)
  (case list
    [(key its-key who rest)
     (begin
       (print-name who)
       (print-sym ' ')
       (print-int its-key)
       (print-newline)
       (show rest))]
    [(no-more) (print-newline)]))

;; A function may answer a function: which comparison, by what is wanted.

(: direction (-> (bool) (-> (int int) bool)))
(define direction (upwards)
  (if upwards < >))

(: start (-> (table) unit))
(define start (players)
  (begin
    (show (sort (dup players) by-points (direction false)))
    (show (sort (dup players) by-rating (direction true)))
    (show (sort players by-games >))))

(: main (-> () unit))
(define main ()
  (start (read-table (in))))
