(set-logic LIA)
(define-fun g ((x Int)) Int (let (y (+ x 1)) (+ y y)))
