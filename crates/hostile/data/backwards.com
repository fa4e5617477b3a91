;; Backwards: the first 240 bytes of the input, last byte first, and their sum
;; as a check. A long list is built, copied and used up, close to what the
;; stacks of 1,000 entries hold.

(datatype bytes
  ([byte (int bytes)]
   [empty ()]))

(: read (-> (int int) bytes))
(define read (now left)
  (if (or (< now 0) (=i left 0))
      (empty)
      (byte now (read (in) (- left 1)))))

(: turn (-> (bytes bytes) bytes))
(define turn (from onto)
  (case from
    [(byte first rest) (turn rest (byte first onto))]
    [(empty) onto]))

(: check-sum (-> (bytes int) int))
(define check-sum (list so-far)
  (case list
    [(byte first rest) (check-sum rest (umod (+ first (* 31 so-far)) 1000003))]
    [(empty) so-far]))

(: show (-> (bytes) unit))
(define show (list)
  (case list
    [(byte first rest)
     (begin
       (print-ascii first)
       (show rest))]
    [(empty) unit]))

(: start (-> (bytes) unit))
(define start (list)
  (begin
    (print-int (check-sum (dup list) 7))
    (print-newline)
    (show (turn list (empty)))
    (print-newline)))

(: main (-> () unit))
(define main ()
  (start (read (in) 240)))
