;; Stops with 35: every byte of the input is a call inside the one before, and
;; a call waits for the calls inside of it.

(: length (-> (int) int))
(define length (byte)
  (if (< byte 0)
      0
      (+ 1 (length (in)))))

(: main (-> () unit))
(define main ()
  (print-int (length (in))))
