; A tree with 383 cells is copied and dropped again and again. Nearly all the time goes into the walks.

(datatype tree ([node (tree int tree)] [leaf (int ints)]))
(datatype ints ([more (int ints)] [none ()]))

(: grow (-> (int) tree))
(define grow (depth)
  (if (=i depth 0)
      (leaf 7 (more 1 (more 2 (none))))
      (node (grow (- depth 1)) depth (grow (- depth 1)))))

(: copies (-> (int tree) int))
(define copies (left kept)
  (if (=i left 0)
      0
      (begin
        (dup kept)
        (+ 1 (copies (- left 1) kept)))))

(: many (-> (int tree) int))
(define many (times kept)
  (if (=i times 1)
      (copies 100 kept)
      (+ (many (/ times 2) (dup kept)) (many (- times (/ times 2)) kept))))

(: main (-> () unit))
(define main () (print-int (many 20 (grow 6))))
