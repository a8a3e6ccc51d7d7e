; needs a collector
(define key (list 'key))
(define w (weak key (list 'data)))
(full-major)
(print (weak-key w) (weak-data w))
(set! key nil)
(full-major)
(print (weak-key w) (weak-data w))
(weak 5 6)
