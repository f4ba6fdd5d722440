; Four steps of a token round a ring.
(set-logic LIA)
(synth-inv inv ((p Int) (n Int)))
(define-fun pre ((p Int) (n Int)) Bool (and (= p 0) (= n 0)))
(define-fun trans ((p Int) (n Int) (p1 Int) (n1 Int)) Bool (or (and (= p 0) (= p1 1) (= n1 (+ n 1))) (or (and (= p 1) (= p1 2) (= n1 n)) (or (and (= p 2) (= p1 3) (= n1 n)) (and (= p 3) (= p1 0) (= n1 n))))))
(define-fun post ((p Int) (n Int)) Bool (and (<= 0 p) (>= n 0)))
(inv-constraint inv pre trans post)
(check-synth)
