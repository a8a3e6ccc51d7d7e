(define (digits n) (if (< n 0) (string-append "minus " (number->string (- 0 n))) (number->string n)))
(print (digits 0) (digits -12) (digits 4611686018427387903))
(define (join l) (cond ((null? l) "") ((null? (cdr l)) (digits (car l))) (else (string-append (digits (car l)) ", " (join (cdr l))))))
(print (join '(1 -2 3 44)))
