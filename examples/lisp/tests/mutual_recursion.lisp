(define (even? n) (if (= n 0) t (odd? (- n 1))))
(define (odd? n) (if (= n 0) nil (even? (- n 1))))
(print (even? 10) (odd? 10) (even? 50001))
