(define (range a b) (if (> a b) nil (cons a (range (+ a 1) b))))
(define (strike p l) (cond ((null? l) nil) ((= 0 (remainder (car l) p)) (strike p (cdr l))) (else (cons (car l) (strike p (cdr l))))))
(define (sieve l) (if (null? l) nil (cons (car l) (sieve (strike (car l) (cdr l))))))
(print (sieve (range 2 100)))
