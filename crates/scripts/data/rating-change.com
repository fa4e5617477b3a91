;; Rating change with K = 20, to a tenth. The expected score comes from the
;; rating difference, in hundredths; a difference of more than 400 counts as
;; 400. Only games at the board count.

;; The crosstable comes in: a line for each player, with a name, a rating and
;; an entry for each round. An entry is an opponent's number, a colour and a
;; result, as 7w1, or a letter for a round without an opponent. This part is
;; the same in every script of the cookbook.

(datatype rounds
  ([game (int int int rounds)]    ;; opponent, colour, result
   [free (int rounds)]            ;; letter
   [done ()]))

(datatype name
  ([letters (int int int)]))      ;; twelve bytes at most, four in each int

(datatype table
  ([player (name int rounds table)]
   [nobody ()]))

(datatype number
  ([digits (int int)]))           ;; what they come to, and the byte behind

(val white 119)
(val black 98)

(val won 49)                      ;; 1
(val drawn 61)                    ;; =
(val lost 48)                     ;; 0
(val forfeit-won 43)              ;; +
(val forfeit-lost 45)             ;; -
(val bye 85)                      ;; U, the pairing's bye: a point
(val half-bye 72)                 ;; H, asked for: half a point
(val absent 90)                   ;; Z: no point

(: is-digit (-> (int) bool))
(define is-digit (byte)
  (and (>= byte 48) (<= byte 57)))

(: read-number (-> (int int) number))
(define read-number (byte so-far)
  (if (is-digit byte)
      (read-number (in) (+ (* so-far 10) (- byte 48)))
      (digits so-far byte)))

(: read-name (-> (int int int int int) name))
(define read-name (byte count one two three)
  (if (<= byte 32)
      (letters one two three)
      (if (< count 4)
          (read-name (in) (+ count 1) (| (<< one 8) byte) two three)
          (if (< count 8)
              (read-name (in) (+ count 1) one (| (<< two 8) byte) three)
              (if (< count 12)
                  (read-name (in) (+ count 1) one two (| (<< three 8) byte))
                  (read-name (in) count one two three))))))

(: read-rounds (-> (int) rounds))
(define read-rounds (byte)
  (if (is-digit byte)
      (case (read-number byte 0)
        [(digits opponent colour)
         (game opponent colour (in) (read-rounds (in)))])
      (if (=i byte 32)
          (read-rounds (in))
          (if (< byte 32)         ;; the line ends, or the input
              (done)
              (free byte (read-rounds (in)))))))

(: read-player (-> (name) table))
(define read-player (who)
  (case (read-number (in) 0)
    [(digits rating behind)
     (player who rating (read-rounds behind) (read-table (in)))]))

(: read-table (-> (int) table))
(define read-table (byte)
  (if (< byte 0)
      (nobody)
      (if (<= byte 32)            ;; an empty line
          (read-table (in))
          (read-player (read-name byte 0 0 0 0)))))

;; What a result or a letter is worth, in half points.

(: worth (-> (int) int))
(define worth (mark)
  (if (or (=i mark won) (or (=i mark forfeit-won) (=i mark bye)))
      2
      (if (or (=i mark drawn) (=i mark half-bye))
          1
          0)))

(datatype ints
  ([more (int ints)]
   [none ()]))

;; The entry with this number, from 1 on, or 0.

(: nth (-> (ints int) int))
(define nth (entries place)
  (case entries
    [(more first rest) (if (=i place 1) first (nth rest (- place 1)))]
    [(none) 0]))

;; Everybody's rating, in the order of the table.

(: ratings (-> (table) ints))
(define ratings (players)
  (case players
    [(player _ rating _ others) (more rating (ratings others))]
    [(nobody) (none)]))

;; A name goes out, byte by byte. Bytes that are 0 were never there.

(: print-word (-> (int int) unit))
(define print-word (word shift)
  (let ([letter (& (>> word shift) 255)])
    (begin
      (if (=i letter 0) unit (print-ascii letter))
      (if (=i shift 0) unit (print-word word (- shift 8))))))

(: print-name (-> (name) unit))
(define print-name (who)
  (case who
    [(letters one two three)
     (begin
       (print-word one 24)
       (print-word two 24)
       (print-word three 24))]))

;; Whether a game was played at the board.

(: at-board (-> (int) bool))
(define at-board (result)
  (or (=i result won) (or (=i result drawn) (=i result lost))))

;; The greatest difference at which the better player expects 50, 51 .. 91
;; hundredths.

(val steps
  (more 3 (more 10 (more 17 (more 25 (more 32 (more 39 (more 46 (more 53
  (more 61 (more 68 (more 76 (more 83 (more 91 (more 98 (more 106 (more 113
  (more 121 (more 129 (more 137 (more 145 (more 153 (more 162 (more 170
  (more 179 (more 188 (more 197 (more 206 (more 215 (more 225 (more 235
  (more 245 (more 256 (more 267 (more 278 (more 290 (more 302 (more 315
  (more 328 (more 344 (more 357 (more 374 (more 391
  (none))))))))))))))))))))))))))))))))))))))))))))

;; The rule.

(: count-below (-> (ints int) int))
(define count-below (entries limit)
  (case entries
    [(more first rest) (if (< first limit) (+ 1 (count-below rest limit)) 0)]
    [(none) 0]))

(: expected (-> (int) int))
(define expected (ahead)
  (if (< ahead 0)
      (- 100 (expected (neg ahead)))
      (+ 50 (count-below steps (if (> ahead 400) 400 ahead)))))

(: gained (-> (rounds ints int) int))
(define gained (played all own)
  (case played
    [(game opponent _ result rest)
     (+ (if (at-board result)
            (- (* 50 (worth result)) (expected (- own (nth (dup all) opponent))))
            0)
        (gained rest all own))]
    [(free _ rest) (gained rest all own)]
    [(done) 0]))

;; Twenty times a hundredth is two tenths.

(: print-change (-> (int) unit))
(define print-change (tenths)
  (begin
    (print-sym (if (< tenths 0) '-' '+'))
    (let ([size (if (< tenths 0) (neg tenths) tenths)])
      (begin
        (print-int (/ size 10))
        (print-sym '.')
        (print-int (% size 10))))))

(: show (-> (table ints) unit))
(define show (players all)
  (case players
    [(player who rating played others)
     (begin
       (print-name who)
       (print-sym ' ')
       (print-change (* 2 (gained played (dup all) rating)))
       (print-newline)
       (show others all))]
    [(nobody) unit]))

(: start (-> (table) unit))
(define start (players)
  (show (dup players) (ratings players)))

(: main (-> () unit))
(define main ()
  (start (read-table (in))))
