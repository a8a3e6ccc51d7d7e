(define (fib n) (if (< n 2) n (+ (fib (- n 1)) (fib (- n 2)))))
(print (fib 0) (fib 1) (fib 10) (fib 20))
