;; Stops with 34: a list is kept in copies, two for each one, until the cells
;; are used up. Copies that are not needed any more would have come back.

(datatype names
  ([more (sym names)]
   [none ()]))

(datatype copies
  ([both (copies copies)]
   [one (names)]))

(: double (-> (int copies) copies))
(define double (times kept)
  (if (=i times 0)
      kept
      (begin
        (print-int times)
        (print-newline)
        (double (- times 1) (both (dup kept) kept)))))

(: main (-> () unit))
(define main ()
  (case (double 9 (one (more 'Adamek' (more 'Bartos' (none)))))
    [_ (print-sym 'kept')]))
