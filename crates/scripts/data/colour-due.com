;; Colour due: who must, should or may have white or black in the next round.
;; A player who is two games ahead with a colour, or had it in the last two
;; games, must change; one who is one ahead should; and one who is even may
;; expect the colour that the last game did not have. Only games at the board
;; count.

;; The crosstable comes in: a line for each player, with a name, a rating and
;; an entry for each round. An entry is an opponent's number, a colour and a
;; result, as 7w1, or a letter for a round without an opponent. This part is
;; the same in every script of the cookbook.

(datatype rounds
  ([game (int int int rounds)]    ;; opponent, colour, result
   [free (int rounds)]            ;; letter
   [done ()]))

(datatype name
  ([letters (int int int)]))      ;; twelve bytes at most, four in each int

(datatype table
  ([player (name int rounds table)]
   [nobody ()]))

(datatype number
  ([digits (int int)]))           ;; what they come to, and the byte behind

(val white 119)
(val black 98)

(val won 49)                      ;; 1
(val drawn 61)                    ;; =
(val lost 48)                     ;; 0
(val forfeit-won 43)              ;; +
(val forfeit-lost 45)             ;; -
(val bye 85)                      ;; U, the pairing's bye: a point
(val half-bye 72)                 ;; H, asked for: half a point
(val absent 90)                   ;; Z: no point

(: is-digit (-> (int) bool))
(define is-digit (byte)
  (and (>= byte 48) (<= byte 57)))

(: read-number (-> (int int) number))
(define read-number (byte so-far)
  (if (is-digit byte)
      (read-number (in) (+ (* so-far 10) (- byte 48)))
      (digits so-far byte)))

(: read-name (-> (int int int int int) name))
(define read-name (byte count one two three)
  (if (<= byte 32)
      (letters one two three)
      (if (< count 4)
          (read-name (in) (+ count 1) (| (<< one 8) byte) two three)
          (if (< count 8)
              (read-name (in) (+ count 1) one (| (<< two 8) byte) three)
              (if (< count 12)
                  (read-name (in) (+ count 1) one two (| (<< three 8) byte))
                  (read-name (in) count one two three))))))

(: read-rounds (-> (int) rounds))
(define read-rounds (byte)
  (if (is-digit byte)
      (case (read-number byte 0)
        [(digits opponent colour)
         (game opponent colour (in) (read-rounds (in)))])
      (if (=i byte 32)
          (read-rounds (in))
          (if (< byte 32)         ;; the line ends, or the input
              (done)
              (free byte (read-rounds (in)))))))

(: read-player (-> (name) table))
(define read-player (who)
  (case (read-number (in) 0)
    [(digits rating behind)
     (player who rating (read-rounds behind) (read-table (in)))]))

(: read-table (-> (int) table))
(define read-table (byte)
  (if (< byte 0)
      (nobody)
      (if (<= byte 32)            ;; an empty line
          (read-table (in))
          (read-player (read-name byte 0 0 0 0)))))

;; A name goes out, byte by byte. Bytes that are 0 were never there.

(: print-word (-> (int int) unit))
(define print-word (word shift)
  (let ([letter (& (>> word shift) 255)])
    (begin
      (if (=i letter 0) unit (print-ascii letter))
      (if (=i shift 0) unit (print-word word (- shift 8))))))

(: print-name (-> (name) unit))
(define print-name (who)
  (case who
    [(letters one two three)
     (begin
       (print-word one 24)
       (print-word two 24)
       (print-word three 24))]))

;; Whether a game was played at the board.

(: at-board (-> (int) bool))
(define at-board (result)
  (or (=i result won) (or (=i result drawn) (=i result lost))))

;; The rule. The balance is the number of games with white less those with
;; black.

(datatype history
  ([colours (int int int)]))      ;; balance, last colour, the one before

(: one-more (-> (int history) history))
(define one-more (colour before)
  (case before
    [(colours balance last _)
     (colours (+ balance (if (=i colour white) 1 -1)) colour last)]))

(: follow (-> (rounds history) history))
(define follow (played before)
  (case played
    [(game _ colour result rest)
     (follow rest (if (at-board result) (one-more colour before) before))]
    [(free _ rest) (follow rest before)]
    [(done) before]))

(: say (-> (sym bool) unit))
(define say (how is-white)
  (begin
    (print-sym how)
    (print-sym (if is-white ' white' ' black'))))

(: judge (-> (history) unit))
(define judge (past)
  (case past
    [(colours balance last before-that)
     (if (=i last 0)
         (print-sym 'either')
         (if (or (>= (* balance balance) 4) (=i last before-that))
             (say 'must' (if (=i last before-that) (=i last black) (< balance 0)))
             (if (=i balance 0)
                 (say 'may' (=i last black))
                 (say 'should' (< balance 0)))))]))

(: show (-> (table) unit))
(define show (players)
  (case players
    [(player who _ played others)
     (begin
       (print-name who)
       (print-sym ' ')
       (judge (follow played (colours 0 0 0)))
       (print-newline)
       (show others))]
    [(nobody) unit]))

(: main (-> () unit))
(define main ()
  (show (read-table (in))))
