;; Stops with 37: every order of sixteen players is tried. That is more than
;; any allowance of steps.

(: orders (-> (int int) int))
(define orders (left choice)
  (if (=i left 0)
      1
      (if (=i choice 0)
          0
          (+ (orders (- left 1) (- left 1))
             (orders left (- choice 1))))))

(: main (-> () unit))
(define main ()
  (begin
    (print-int (orders 5 5))
    (print-newline)
    (print-int (orders 16 16))))
