; needs a collector
(define (count n) (if (= n 0) 0 (count (- n 1))))
(open)
(open)
(open)
(print (join (spawn (begin (full-major) (count 20000) (full-major) (count 20000) 1))))
(full-major)
(print (handle-counts))
