; Two numbers that meet.
(set-logic LIA)
(synth-inv inv ((x Int) (y Int)))
(define-fun pre ((x Int) (y Int)) Bool (and (= x 0) (= y 10)))
(define-fun trans ((x Int) (y Int) (x1 Int) (y1 Int)) Bool (and (< x y) (= x1 (+ x 1)) (= y1 (- y 1))))
(define-fun post ((x Int) (y Int)) Bool (=> (not (< x y)) (= x y)))
(inv-constraint inv pre trans post)
(check-synth)
