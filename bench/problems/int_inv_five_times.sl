; A product by sums.
(set-logic LIA)
(synth-inv inv ((i Int) (p Int)))
(define-fun pre ((i Int) (p Int)) Bool (and (= i 0) (= p 0)))
(define-fun trans ((i Int) (p Int) (i1 Int) (p1 Int)) Bool (and (= i1 (+ i 1)) (= p1 (+ p 5))))
(define-fun post ((i Int) (p Int)) Bool (=> (= i 20) (= p 100)))
(inv-constraint inv pre trans post)
(check-synth)
