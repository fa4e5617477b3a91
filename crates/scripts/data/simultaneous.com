;; A simultaneous display: the master meets everybody in the list. Out comes
;; what the first round says about it, from the master's side, and a medal for
;; whoever did not lose.

;; The crosstable comes in: a line for each player, with a name, a rating and
;; an entry for each round. An entry is an opponent's number, a colour and a
;; result, as 7w1, or a letter for a round without an opponent. This part is
;; the same in every script of the cookbook.

(datatype rounds
  ([game (int int int rounds)]    ;; opponent, colour, result
   [free (int rounds)]            ;; letter
   [done ()]))

(datatype name
  ([letters (int int int)]))      ;; twelve bytes at most, four in each int

(datatype table
  ([player (name int rounds table)]
   [nobody ()]))

(datatype number
  ([digits (int int)]))           ;; what they come to, and the byte behind

(val white 119)
(val black 98)

(val won 49)                      ;; 1
(val drawn 61)                    ;; =
(val lost 48)                     ;; 0
(val forfeit-won 43)              ;; +
(val forfeit-lost 45)             ;; -
(val bye 85)                      ;; U, the pairing's bye: a point
(val half-bye 72)                 ;; H, asked for: half a point
(val absent 90)                   ;; Z: no point

(: is-digit (-> (int) bool))
(define is-digit (byte)
  (and (>= byte 48) (<= byte 57)))

(: read-number (-> (int int) number))
(define read-number (byte so-far)
  (if (is-digit byte)
      (read-number (in) (+ (* so-far 10) (- byte 48)))
      (digits so-far byte)))

(: read-name (-> (int int int int int) name))
(define read-name (byte count one two three)
  (if (<= byte 32)
      (letters one two three)
      (if (< count 4)
          (read-name (in) (+ count 1) (| (<< one 8) byte) two three)
          (if (< count 8)
              (read-name (in) (+ count 1) one (| (<< two 8) byte) three)
              (if (< count 12)
                  (read-name (in) (+ count 1) one two (| (<< three 8) byte))
                  (read-name (in) count one two three))))))

(: read-rounds (-> (int) rounds))
(define read-rounds (byte)
  (if (is-digit byte)
      (case (read-number byte 0)
        [(digits opponent colour)
         (game opponent colour (in) (read-rounds (in)))])
      (if (=i byte 32)
          (read-rounds (in))
          (if (< byte 32)         ;; the line ends, or the input
              (done)
              (free byte (read-rounds (in)))))))

(: read-player (-> (name) table))
(define read-player (who)
  (case (read-number (in) 0)
    [(digits rating behind)
     (player who rating (read-rounds behind) (read-table (in)))]))

(: read-table (-> (int) table))
(define read-table (byte)
  (if (< byte 0)
      (nobody)
      (if (<= byte 32)            ;; an empty line
          (read-table (in))
          (read-player (read-name byte 0 0 0 0)))))

;; A name goes out, byte by byte. Bytes that are 0 were never there.

(: print-word (-> (int int) unit))
(define print-word (word shift)
  (let ([letter (& (>> word shift) 255)])
    (begin
      (if (=i letter 0) unit (print-ascii letter))
      (if (=i shift 0) unit (print-word word (- shift 8))))))

(: print-name (-> (name) unit))
(define print-name (who)
  (case who
    [(letters one two three)
     (begin
       (print-word one 24)
       (print-word two 24)
       (print-word three 24))]))

;; The rule: cases within cases, and a bare _ for all the rest.

(datatype outcome
  ([beaten (name)]
   [held (name)]
   [lost-to (name)]
   [not-played (name int)]))

(: outcome-of (-> (name rounds) outcome))
(define outcome-of (who played)
  (case played
    [(game _ _ result _)
     (if (=i result lost)
         (beaten who)
         (if (=i result drawn)
             (held who)
             (if (=i result won) (lost-to who) (not-played who result))))]
    [(free letter _) (not-played who letter)]
    [(done) (not-played who 63)]))

(: medal (-> (outcome) bool))
(define medal (it)
  (case it
    [(held _) true]
    [(lost-to _) true]
    [_ false]))

(: tell (-> (outcome) unit))
(define tell (it)
  (case it
    [(beaten who) (begin (print-sym '1 ') (print-name who))]
    [(held who) (begin (print-sym '= ') (print-name who))]
    [(lost-to who) (begin (print-sym '0 ') (print-name who))]
    [(not-played who mark)
     (begin
       (print-ascii mark)
       (print-sym ' ')
       (print-name who))]))

(: show (-> (table) unit))
(define show (players)
  (case players
    [(player who _ played others)
     (let ([it (outcome-of who played)]
           [is-earned (medal (dup it))])
       (begin
         (tell it)
         (print-sym (if is-earned ' medal' ''))
         (print-newline)
         (show others)))]
    [(nobody) unit]))

(: main (-> () unit))
(define main ()
  (show (read-table (in))))
