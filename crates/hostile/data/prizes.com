;; Prizes: 500, 300, 200 and 100. Players with equal points share the prizes of
;; the places that they take together. What does not divide stays in the club.

;; The crosstable comes in: a line for each player, with a name, a rating and
;; an entry for each round. An entry is an opponent's number, a colour and a
;; result, as 7w1, or a letter for a round without an opponent. This part is
;; the same in every script of the cookbook.

(datatype rounds
  ([game (int int int rounds)]    ;; opponent, colour, result
   [free (int rounds)]            ;; letter
   [done ()]))

(datatype name
  ([letters (int int int)]))      ;; twelve bytes at most, four in each int

(datatype table
  ([player (name int rounds table)]
   [nobody ()]))

(datatype number
  ([digits (int int)]))           ;; what they come to, and the byte behind

(val white 119)
(val black 98)

(val won 49)                      ;; 1
(val drawn 61)                    ;; =
(val lost 48)                     ;; 0
(val forfeit-won 43)              ;; +
(val forfeit-lost 45)             ;; -
(val bye 85)                      ;; U, the pairing's bye: a point
(val half-bye 72)                 ;; H, asked for: half a point
(val absent 90)                   ;; Z: no point

(: is-digit (-> (int) bool))
(define is-digit (byte)
  (and (>= byte 48) (<= byte 57)))

(: read-number (-> (int int) number))
(define read-number (byte so-far)
  (if (is-digit byte)
      (read-number (in) (+ (* so-far 10) (- byte 48)))
      (digits so-far byte)))

(: read-name (-> (int int int int int) name))
(define read-name (byte count one two three)
  (if (<= byte 32)
      (letters one two three)
      (if (< count 4)
          (read-name (in) (+ count 1) (| (<< one 8) byte) two three)
          (if (< count 8)
              (read-name (in) (+ count 1) one (| (<< two 8) byte) three)
              (if (< count 12)
                  (read-name (in) (+ count 1) one two (| (<< three 8) byte))
                  (read-name (in) count one two three))))))

(: read-rounds (-> (int) rounds))
(define read-rounds (byte)
  (if (is-digit byte)
      (case (read-number byte 0)
        [(digits opponent colour)
         (game opponent colour (in) (read-rounds (in)))])
      (if (=i byte 32)
          (read-rounds (in))
          (if (< byte 32)         ;; the line ends, or the input
              (done)
              (free byte (read-rounds (in)))))))

(: read-player (-> (name) table))
(define read-player (who)
  (case (read-number (in) 0)
    [(digits rating behind)
     (player who rating (read-rounds behind) (read-table (in)))]))

(: read-table (-> (int) table))
(define read-table (byte)
  (if (< byte 0)
      (nobody)
      (if (<= byte 32)            ;; an empty line
          (read-table (in))
          (read-player (read-name byte 0 0 0 0)))))

;; What a result or a letter is worth, in half points.

(: worth (-> (int) int))
(define worth (mark)
  (if (or (=i mark won) (or (=i mark forfeit-won) (=i mark bye)))
      2
      (if (or (=i mark drawn) (=i mark half-bye))
          1
          0)))

(: points (-> (rounds) int))
(define points (played)
  (case played
    [(game _ _ result rest) (+ (worth result) (points rest))]
    [(free letter rest) (+ (worth letter) (points rest))]
    [(done) 0]))

(datatype ints
  ([more (int ints)]
   [none ()]))

;; The entry with this number, from 1 on, or 0.

(: nth (-> (ints int) int))
(define nth (entries place)
  (case entries
    [(more first rest) (if (=i place 1) first (nth rest (- place 1)))]
    [(none) 0]))

;; A name goes out, byte by byte. Bytes that are 0 were never there.

(: print-word (-> (int int) unit))
(define print-word (word shift)
  (let ([letter (& (>> word shift) 255)])
    (begin
      (if (=i letter 0) unit (print-ascii letter))
      (if (=i shift 0) unit (print-word word (- shift 8))))))

(: print-name (-> (name) unit))
(define print-name (who)
  (case who
    [(letters one two three)
     (begin
       (print-word one 24)
       (print-word two 24)
       (print-word three 24))]))

;; Points are counted in halves.

(: print-halves (-> (int) unit))
(define print-halves (halves)
  (begin
    (print-int (/ halves 2))
    (print-sym (if (=i (% halves 2) 0) '.0' '.5'))))

;; The players by points, then by rating. The list has points, rating, name.

(datatype standing
  ([placed (int int name standing)]
   [bottom ()]))

(: put-in (-> (int int name standing) standing))
(define put-in (score rating who list)
  (case list
    [(placed its-score its-rating its-name below)
     (if (or (> score its-score)
             (and (=i score its-score) (>= rating its-rating)))
         (placed score rating who (placed its-score its-rating its-name below))
         (placed its-score its-rating its-name (put-in score rating who below)))]
    [(bottom) (placed score rating who (bottom))]))

(: standings (-> (table) standing))
(define standings (players)
  (case players
    [(player who rating played others)
     (put-in (points played) rating who (standings others))]
    [(nobody) (bottom)]))

;; The rule, in hundredths of the coin.

(val purse
  (more 50000 (more 30000 (more 20000 (more 10000 (none))))))

(: group-size (-> (int standing) int))
(define group-size (score list)
  (case list
    [(placed its-score _ _ below)
     (if (=i its-score score) (+ 1 (group-size score below)) 0)]
    [(bottom) 0]))

(: prizes-of (-> (int int) int))
(define prizes-of (from count)
  (if (=i count 0)
      0
      (+ (nth purse from) (prizes-of (+ from 1) (- count 1)))))

(: print-amount (-> (int) unit))
(define print-amount (hundredths)
  (begin
    (print-int (/ hundredths 100))
    (print-sym '.')
    (print-int (/ (% hundredths 100) 10))
    (print-int (% hundredths 10))))

(: show-group (-> (int int int int standing) standing))
(define show-group (from count left amount list)
  (if (=i left 0)
      list
      (case list
        [(placed score _ who below)
         (begin
           (print-int from)
           (if (> count 1)
               (begin
                 (print-sym '-')
                 (print-int (- (+ from count) 1)))
               unit)
           (print-sym '. ')
           (print-name who)
           (print-sym ' ')
           (print-halves score)
           (print-sym ' ')
           (print-amount amount)
           (print-newline)
           (show-group from count (- left 1) amount below))]
        [(bottom) (bottom)])))

(: show (-> (int standing) unit))
(define show (from list)
  (if (> from 4)
      unit
      (show-groups from list)))

(: show-groups (-> (int standing) unit))
(define show-groups (from list)
  (case (dup list)
    [(placed score _ _ below)
     (let ([count (+ 1 (group-size score below))])
       (show (+ from count)
             (show-group from count count (/ (prizes-of from count) count) list)))]
    [(bottom) unit]))

(: main (-> () unit))
(define main ()
  (show 1 (standings (read-table (in)))))
