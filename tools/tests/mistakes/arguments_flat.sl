(set-logic LIA)
(define-fun g (x Int) Int (+ x 1))
