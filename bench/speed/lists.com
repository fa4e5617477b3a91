; Lists of 200 ints are built, added up and so used up.

(datatype ints ([more (int ints)] [none ()]))

(: count-down (-> (int) ints))
(define count-down (from)
  (if (=i from 0)
      (none)
      (more from (count-down (- from 1)))))

(: total (-> (ints) int))
(define total (list)
  (case list
    [(more first rest) (+ first (total rest))]
    [(none) 0]))

(: many (-> (int) int))
(define many (times)
  (if (=i times 1)
      (total (count-down 200))
      (+ (many (/ times 2)) (many (- times (/ times 2))))))

(: main (-> () unit))
(define main () (print-int (many 1000)))
