;; Refused with 6: the inner branch binds a name that the outer one has bound.

(datatype ints
  ([more (int ints)]
   [none ()]))

(: second (-> (ints) int))
(define second (list)
  (case list
    [(more first rest)
     (case rest
       [(more next rest) next]
       [(none) first])]
    [(none) 0]))

(: main (-> () unit))
(define main ()
  (print-int (second (more 1 (more 2 (none))))))
