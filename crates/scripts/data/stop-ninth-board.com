;; Stops with 33: a match of boards is packed into an int, four bits to a
;; board. Eight boards fill it, and the ninth has no place.

(: pack (-> (int int int) int))
(define pack (board boards packed)
  (if (=i board boards)
      packed
      (pack (+ board 1) boards (| packed (<< 2 (* 4 board))))))

(: main (-> () unit))
(define main ()
  (begin
    (print-int (pack 0 4 0))
    (print-newline)
    (print-int (pack 0 8 0))
    (print-newline)
    (print-int (pack 0 9 0))))
