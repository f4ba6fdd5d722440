; A counter by steps of two, with half of it beside.
(set-logic LIA)
(synth-inv inv ((x Int) (k Int)))
(define-fun pre ((x Int) (k Int)) Bool (and (= x 0) (= k 0)))
(define-fun trans ((x Int) (k Int) (x1 Int) (k1 Int)) Bool (and (< x 10) (= x1 (+ x 2)) (= k1 (+ k 1))))
(define-fun post ((x Int) (k Int)) Bool (= x (+ k k)))
(inv-constraint inv pre trans post)
(check-synth)
