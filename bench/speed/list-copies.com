; A list with 401 cells is copied and dropped again and again.

(datatype ints ([more (int ints)] [none ()]))

(: count-down (-> (int) ints))
(define count-down (from)
  (if (=i from 0)
      (none)
      (more from (count-down (- from 1)))))

(: copies (-> (int ints) int))
(define copies (left kept)
  (if (=i left 0)
      0
      (begin
        (dup kept)
        (+ 1 (copies (- left 1) kept)))))

(: many (-> (int ints) int))
(define many (times kept)
  (if (=i times 1)
      (copies 100 kept)
      (+ (many (/ times 2) (dup kept)) (many (- times (/ times 2)) kept))))

(: main (-> () unit))
(define main () (print-int (many 20 (count-down 400))))
