(define moves 0)
(define (hanoi n from to by)
  (if (= n 0) nil
      (begin (hanoi (- n 1) from by to)
             (set! moves (+ moves 1))
             (hanoi (- n 1) by to from))))
(hanoi 10 'a 'b 'c)
(print moves)
