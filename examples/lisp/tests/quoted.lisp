(print '(1 (2 (3 (4))) ()) ''a '("text" t nil))
(print (cons 1 2) (cons 1 (cons 2 3)) (car '((a) b)) (cdr '(a)))
(print (list) (list 1) (list 1 (list 2) "three" 'four))
