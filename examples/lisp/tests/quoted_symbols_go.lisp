; needs a collector
(full-major)
(define start (symbol-count))
(car '(once-1 once-2 once-3))
(define (keeps) '(for-long-1 for-long-2))
(full-major)
(print (- (symbol-count) start))
(print (keeps))
