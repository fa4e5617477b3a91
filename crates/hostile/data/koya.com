;; Koya: the points scored against opponents who have at least half of the
;; points that there were to win.

;; The crosstable comes in: a line for each player, with a name, a rating and
;; an entry for each round. An entry is an opponent's number, a colour and a
;; result, as 7w1, or a letter for a round without an opponent. This part is
;; the same in every script of the cookbook.

(datatype rounds
  ([game (int int int rounds)]    ;; opponent, colour, result
   [free (int rounds)]            ;; letter
   [done ()]))

(datatype name
  ([letters (int int int)]))      ;; twelve bytes at most, four in each int

(datatype table
  ([player (name int rounds table)]
   [nobody ()]))

(datatype number
  ([digits (int int)]))           ;; what they come to, and the byte behind

(val white 119)
(val black 98)

(val won 49)                      ;; 1
(val drawn 61)                    ;; =
(val lost 48)                     ;; 0
(val forfeit-won 43)              ;; +
(val forfeit-lost 45)             ;; -
(val bye 85)                      ;; U, the pairing's bye: a point
(val half-bye 72)                 ;; H, asked for: half a point
(val absent 90)                   ;; Z: no point

(: is-digit (-> (int) bool))
(define is-digit (byte)
  (and (>= byte 48) (<= byte 57)))

(: read-number (-> (int int) number))
(define read-number (byte so-far)
  (if (is-digit byte)
      (read-number (in) (+ (* so-far 10) (- byte 48)))
      (digits so-far byte)))

(: read-name (-> (int int int int int) name))
(define read-name (byte count one two three)
  (if (<= byte 32)
      (letters one two three)
      (if (< count 4)
          (read-name (in) (+ count 1) (| (<< one 8) byte) two three)
          (if (< count 8)
              (read-name (in) (+ count 1) one (| (<< two 8) byte) three)
              (if (< count 12)
                  (read-name (in) (+ count 1) one two (| (<< three 8) byte))
                  (read-name (in) count one two three))))))

(: read-rounds (-> (int) rounds))
(define read-rounds (byte)
  (if (is-digit byte)
      (case (read-number byte 0)
        [(digits opponent colour)
         (game opponent colour (in) (read-rounds (in)))])
      (if (=i byte 32)
          (read-rounds (in))
          (if (< byte 32)         ;; the line ends, or the input
              (done)
              (free byte (read-rounds (in)))))))

(: read-player (-> (name) table))
(define read-player (who)
  (case (read-number (in) 0)
    [(digits rating behind)
     (player who rating (read-rounds behind) (read-table (in)))]))

(: read-table (-> (int) table))
(define read-table (byte)
  (if (< byte 0)
      (nobody)
      (if (<= byte 32)            ;; an empty line
          (read-table (in))
          (read-player (read-name byte 0 0 0 0)))))

;; What a result or a letter is worth, in half points.

(: worth (-> (int) int))
(define worth (mark)
  (if (or (=i mark won) (or (=i mark forfeit-won) (=i mark bye)))
      2
      (if (or (=i mark drawn) (=i mark half-bye))
          1
          0)))

(: points (-> (rounds) int))
(define points (played)
  (case played
    [(game _ _ result rest) (+ (worth result) (points rest))]
    [(free letter rest) (+ (worth letter) (points rest))]
    [(done) 0]))

(datatype ints
  ([more (int ints)]
   [none ()]))

;; The entry with this number, from 1 on, or 0.

(: nth (-> (ints int) int))
(define nth (entries place)
  (case entries
    [(more first rest) (if (=i place 1) first (nth rest (- place 1)))]
    [(none) 0]))

;; Everybody's points, in the order of the table.

(: scores (-> (table) ints))
(define scores (players)
  (case players
    [(player _ _ played others) (more (points played) (scores others))]
    [(nobody) (none)]))

;; A name goes out, byte by byte. Bytes that are 0 were never there.

(: print-word (-> (int int) unit))
(define print-word (word shift)
  (let ([letter (& (>> word shift) 255)])
    (begin
      (if (=i letter 0) unit (print-ascii letter))
      (if (=i shift 0) unit (print-word word (- shift 8))))))

(: print-name (-> (name) unit))
(define print-name (who)
  (case who
    [(letters one two three)
     (begin
       (print-word one 24)
       (print-word two 24)
       (print-word three 24))]))

;; Points are counted in halves.

(: print-halves (-> (int) unit))
(define print-halves (halves)
  (begin
    (print-int (/ halves 2))
    (print-sym (if (=i (% halves 2) 0) '.0' '.5'))))

;; The rule. Half of the points are as many half points as there were rounds.

(: how-many (-> (rounds) int))
(define how-many (played)
  (case played
    [(game _ _ _ rest) (+ 1 (how-many rest))]
    [(free _ rest) (+ 1 (how-many rest))]
    [(done) 0]))

(: against-the-strong (-> (rounds ints int) int))
(define against-the-strong (played all half)
  (case played
    [(game opponent _ result rest)
     (+ (if (>= (nth (dup all) opponent) half) (worth result) 0)
        (against-the-strong rest all half))]
    [(free _ rest) (against-the-strong rest all half)]
    [(done) 0]))

(: show (-> (table ints) unit))
(define show (players all)
  (case players
    [(player who _ played others)
     (begin
       (print-name who)
       (print-sym ' ')
       (print-halves (points (dup played)))
       (print-sym ' ')
       (print-halves (against-the-strong (dup played) (dup all) (how-many played)))
       (print-newline)
       (show others all))]
    [(nobody) unit]))

(: start (-> (table) unit))
(define start (players)
  (show (dup players) (scores players)))

(: main (-> () unit))
(define main ()
  (start (read-table (in))))
