;; Refused with 3: one bracket too few closes the function, so the text ends
;; inside of it.

(: points (-> (int int) int))
(define points (won drawn)
  (+ (* 2 won) drawn)

(: main (-> () unit))
(define main ()
  (print-int (points 3 2)))
