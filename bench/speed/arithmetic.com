; Arithmetic, tests and calls alone: no data. The loop is a recursion, so it is cut into stretches of 300, which lie in a
; tree of calls.

(: stretch (-> (int int) int))
(define stretch (left sum)
  (if (=i left 0)
      sum
      (stretch (- left 1) (^ (+ (* sum 31) left) (>> (& sum 65535) 3)))))

(: many (-> (int int) int))
(define many (times sum)
  (if (<= times 1)
      (stretch 300 sum)
      (many (- times (/ times 2)) (many (/ times 2) sum))))

(: main (-> () unit))
(define main () (print-int (many 1000 1)))
