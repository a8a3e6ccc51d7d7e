(define (count n) (if (= n 0) 'done (count (- n 1))))
(print (count 300000))
(define (sum n so-far) (cond ((= n 0) so-far) (else (sum (- n 1) (+ so-far n)))))
(print (sum 100000 0))
