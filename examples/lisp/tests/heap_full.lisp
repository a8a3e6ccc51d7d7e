; needs a collector
(define (fill l) (fill (cons 1 l)))
(fill nil)
(print 'on)
(define (range a b) (if (= a b) nil (cons a (range (- a 1) b))))
(define (sum l) (if (null? l) 0 (+ (car l) (sum (cdr l)))))
(full-major)
(print (sum (range 1000 0)))
