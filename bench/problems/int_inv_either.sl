; One of two counters goes on, by two branches.
(set-logic LIA)
(synth-inv inv ((x Int) (y Int)))
(define-fun pre ((x Int) (y Int)) Bool (and (= x 0) (= y 0)))
(define-fun trans ((x Int) (y Int) (x1 Int) (y1 Int)) Bool (or (and (< x y) (= x1 (+ x 1)) (= y1 y)) (and (<= y x) (= x1 x) (= y1 (+ y 1)))))
(define-fun post ((x Int) (y Int)) Bool (and (<= x y) (<= y (+ x 1))))
(inv-constraint inv pre trans post)
(check-synth)
