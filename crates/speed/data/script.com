; Small data is taken apart and made anew, by cases of six branches.

(datatype state
  ([start ()]
   [digit (int)]
   [letter (int int)]
   [space (int state)]
   [mark ()]
   [stop ()]))

(: next (-> (state) state))
(define next (now)
  (case now
    [(mark) (start)]
    [(stop) (mark)]
    [(start) (digit 1)]
    [(digit one) (letter one 2)]
    [(letter one two) (space (+ one two) (start))]
    [(space _ _) (stop)]))

(: turns (-> (int state) state))
(define turns (left now)
  (if (=i left 0)
      now
      (turns (- left 1) (next now))))

(: many (-> (int state) state))
(define many (times now)
  (if (<= times 1)
      (turns 120 now)
      (many (- times (/ times 2)) (many (/ times 2) now))))

(: main (-> () unit))
(define main ()
  (case (many 1000 (start))
    [(start) (print-sym 'start')]
    [_ (print-sym 'other')]))
