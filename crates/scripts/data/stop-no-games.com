;; Stops with 32: an average over games, asked for a player without any.

(: average (-> (int int) int))
(define average (total games)
  (/ total games))

(: show (-> (int int) unit))
(define show (total games)
  (begin
    (print-int (average total games))
    (print-newline)))

(: main (-> () unit))
(define main ()
  (begin
    (show 6123 3)
    (show 0 0)))
