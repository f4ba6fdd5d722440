; At most one of two is inside, by four branches.
(set-logic LIA)
(synth-inv inv ((a Int) (b Int)))
(define-fun pre ((a Int) (b Int)) Bool (and (= a 0) (= b 0)))
(define-fun trans ((a Int) (b Int) (a1 Int) (b1 Int)) Bool (or (and (= a 0) (= b 0) (= a1 1) (= b1 0)) (or (and (= a 0) (= b 0) (= a1 0) (= b1 1)) (or (and (= a 1) (= a1 0) (= b1 b)) (and (= b 1) (= a1 a) (= b1 0))))))
(define-fun post ((a Int) (b Int)) Bool (<= (+ a b) 1))
(inv-constraint inv pre trans post)
(check-synth)
