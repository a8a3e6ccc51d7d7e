(define (insert tree key)
  (cond ((null? tree) (list key nil nil))
        ((< key (car tree)) (list (car tree) (insert (car (cdr tree)) key) (car (cdr (cdr tree)))))
        (else (list (car tree) (car (cdr tree)) (insert (car (cdr (cdr tree))) key)))))
(define (walk tree so-far)
  (if (null? tree) so-far
      (walk (car (cdr tree)) (cons (car tree) (walk (car (cdr (cdr tree))) so-far)))))
(define (fill tree n seed) (if (= n 0) tree (fill (insert tree seed) (- n 1) (remainder (+ (* seed 37) 11) 101))))
(print (walk (fill nil 30 5) nil))
