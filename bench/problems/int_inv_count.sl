; A counter up to 10.
(set-logic LIA)
(synth-inv inv ((x Int)))
(define-fun pre ((x Int)) Bool (= x 0))
(define-fun trans ((x Int) (x1 Int)) Bool (and (< x 10) (= x1 (+ x 1))))
(define-fun post ((x Int)) Bool (=> (not (< x 10)) (= x 10)))
(inv-constraint inv pre trans post)
(check-synth)
