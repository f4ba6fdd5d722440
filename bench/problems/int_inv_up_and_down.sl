; A counter that goes up, and then down.
(set-logic LIA)
(synth-inv inv ((x Int) (p Int)))
(define-fun pre ((x Int) (p Int)) Bool (and (= x 0) (= p 0)))
(define-fun trans ((x Int) (p Int) (x1 Int) (p1 Int)) Bool (or (and (= p 0) (< x 10) (= x1 (+ x 1)) (= p1 0)) (or (and (= p 0) (= x 10) (= x1 x) (= p1 1)) (and (= p 1) (> x 0) (= x1 (- x 1)) (= p1 1)))))
(define-fun post ((x Int) (p Int)) Bool (and (<= 0 x) (<= x 10)))
(inv-constraint inv pre trans post)
(check-synth)
