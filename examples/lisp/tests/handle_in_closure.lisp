; needs a collector
(define (reader) (let ((h (open))) (lambda () h)))
(define r (reader))
(full-major)
(print (handle-counts) (close (r)))
(define r (reader))
(set! r nil)
(full-major)
(print (handle-counts))
