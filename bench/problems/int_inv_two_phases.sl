; A number that waits, and then goes on with a counter.
(set-logic LIA)
(synth-inv inv ((x Int) (y Int)))
(define-fun pre ((x Int) (y Int)) Bool (and (= x 0) (= y 5)))
(define-fun trans ((x Int) (y Int) (x1 Int) (y1 Int)) Bool (and (< x 10) (= x1 (+ x 1)) (or (and (< x 5) (= y1 y)) (and (>= x 5) (= y1 (+ y 1))))))
(define-fun post ((x Int) (y Int)) Bool (=> (not (< x 10)) (= y 10)))
(inv-constraint inv pre trans post)
(check-synth)
