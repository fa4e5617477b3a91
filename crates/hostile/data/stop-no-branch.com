;; Stops with 31: a rule that knows games and byes, and meets somebody who has
;; not played yet.

(datatype entry
  ([game (int)]
   [bye ()]
   [nothing ()]))

(: read-entry (-> (int) entry))
(define read-entry (byte)
  (if (=i byte 85)
      (bye)
      (if (< byte 32)
          (nothing)
          (game (- byte 48)))))

(: worth (-> (entry) int))
(define worth (it)
  (case it                        ;; the branch for (nothing) is missing
    [(game points) points]
    [(bye) 1]))

(: main (-> () unit))
(define main ()
  (begin
    (print-int (worth (read-entry (in))))
    (print-newline)
    (print-int (worth (read-entry (in))))
    (print-newline)
    (print-int (worth (read-entry (in))))))
