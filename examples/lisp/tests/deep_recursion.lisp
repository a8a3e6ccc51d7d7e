(define (build n) (if (= n 0) nil (cons n (build (- n 1)))))
(define (length l) (if (null? l) 0 (+ 1 (length (cdr l)))))
(print (length (build 10000)))
