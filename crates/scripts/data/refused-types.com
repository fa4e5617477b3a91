;; Refused with 9: half points are told as an int on one arm, and as a symbol on
;; the other.

(: told (-> (int) sym))
(define told (halves)
  (if (=i (% halves 2) 0)
      (/ halves 2)
      'a half'))

(: main (-> () unit))
(define main ()
  (print-sym (told 3)))
