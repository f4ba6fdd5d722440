; A tank that fills and empties, by two branches.
(set-logic LIA)
(synth-inv inv ((w Int) (v Int)))
(define-fun pre ((w Int) (v Int)) Bool (and (= w 1) (= v 1)))
(define-fun trans ((w Int) (v Int) (w1 Int) (v1 Int)) Bool (or (and (= v 1) (< w 10) (= w1 (+ w 1)) (= v1 v)) (or (and (= w 10) (= w1 (- w 1)) (= v1 (- 0 1))) (and (= v (- 0 1)) (> w 1) (< w 10) (= w1 (- w 1)) (= v1 v)))))
(define-fun post ((w Int) (v Int)) Bool (and (<= 1 w) (<= w 10)))
(inv-constraint inv pre trans post)
(check-synth)
