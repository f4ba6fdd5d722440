; A counter down to 0.
(set-logic LIA)
(synth-inv inv ((x Int)))
(define-fun pre ((x Int)) Bool (= x 100))
(define-fun trans ((x Int) (x1 Int)) Bool (and (> x 0) (= x1 (- x 1))))
(define-fun post ((x Int)) Bool (=> (not (> x 0)) (= x 0)))
(inv-constraint inv pre trans post)
(check-synth)
