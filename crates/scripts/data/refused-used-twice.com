;; Refused with 10: the list of points is added up, and then used again. (dup
;; list) in the first place would do.

(datatype ints
  ([more (int ints)]
   [none ()]))

(: total (-> (ints) int))
(define total (list)
  (case list
    [(more first rest) (+ first (total rest))]
    [(none) 0]))

(: count (-> (ints) int))
(define count (list)
  (case list
    [(more _ rest) (+ 1 (count rest))]
    [(none) 0]))

(: average (-> (ints) int))
(define average (points)
  (/ (total points) (count points)))

(: main (-> () unit))
(define main ()
  (print-int (average (more 1 (more 2 (none))))))
