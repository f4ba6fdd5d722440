; A sum that stays even, with its half beside.
(set-logic LIA)
(synth-inv inv ((x Int) (y Int) (h Int)))
(define-fun pre ((x Int) (y Int) (h Int)) Bool (and (= x 0) (= y 0) (= h 0)))
(define-fun trans ((x Int) (y Int) (h Int) (x1 Int) (y1 Int) (h1 Int)) Bool (or (and (= x1 (+ x 1)) (= y1 (+ y 1)) (= h1 (+ h 1))) (and (= x1 (+ x 2)) (= y1 y) (= h1 (+ h 1)))))
(define-fun post ((x Int) (y Int) (h Int)) Bool (= (+ x y) (+ h h)))
(inv-constraint inv pre trans post)
(check-synth)
