; Three counters that stay equal.
(set-logic LIA)
(synth-inv inv ((x Int) (y Int) (z Int)))
(define-fun pre ((x Int) (y Int) (z Int)) Bool (and (= x 0) (= y 0) (= z 0)))
(define-fun trans ((x Int) (y Int) (z Int) (x1 Int) (y1 Int) (z1 Int)) Bool (and (= x1 (+ x 1)) (= y1 (+ y 1)) (= z1 (+ z 1))))
(define-fun post ((x Int) (y Int) (z Int)) Bool (and (= x y) (= y z)))
(inv-constraint inv pre trans post)
(check-synth)
