(print (< 1 2) (< 2 1) (> 2 1) (= 3 3) (= 3 4) (eq? 'a 'a) (eq? 'a 'b) (eq? 5 5) (eq? (list 1) (list 1)))
(print (null? nil) (null? '(1)) (not nil) (not 0) (pair? '(1)) (pair? nil) (symbol? 'x) (string? "x") (number? 1) (function? car))
