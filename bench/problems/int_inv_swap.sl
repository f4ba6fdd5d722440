; Two that change places.
(set-logic LIA)
(synth-inv inv ((x Int) (y Int)))
(define-fun pre ((x Int) (y Int)) Bool (and (= x 1) (= y 9)))
(define-fun trans ((x Int) (y Int) (x1 Int) (y1 Int)) Bool (and (= x1 y) (= y1 x)))
(define-fun post ((x Int) (y Int)) Bool (= (+ x y) 10))
(inv-constraint inv pre trans post)
(check-synth)
