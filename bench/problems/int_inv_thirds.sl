; A number by steps of three is no other multiple and one.
(set-logic LIA)
(synth-inv inv ((x Int) (k Int)))
(define-fun pre ((x Int) (k Int)) Bool (and (= x 0) (= k 0)))
(define-fun trans ((x Int) (k Int) (x1 Int) (k1 Int)) Bool (and (= x1 (+ x 3)) (= k1 (+ k 1))))
(define-fun post ((x Int) (k Int)) Bool (distinct x (+ (* 3 k) 1)))
(inv-constraint inv pre trans post)
(check-synth)
