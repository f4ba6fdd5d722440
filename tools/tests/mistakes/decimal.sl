(set-logic LIA)
(define-fun half ((x Int)) Int (* 0.5 x))
