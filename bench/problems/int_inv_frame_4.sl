; A counter up to a limit, with two more variables.
(set-logic LIA)
(synth-inv inv ((i Int) (n Int) (a Int) (b Int)))
(define-fun pre ((i Int) (n Int) (a Int) (b Int)) Bool (and (= i 0) (>= n 0) (= a n) (= b 0)))
(define-fun trans ((i Int) (n Int) (a Int) (b Int) (i1 Int) (n1 Int) (a1 Int) (b1 Int)) Bool (and (< i n) (= i1 (+ i 1)) (= n1 n) (= a1 a) (= b1 b)))
(define-fun post ((i Int) (n Int) (a Int) (b Int)) Bool (=> (not (< i n)) (= i a)))
(inv-constraint inv pre trans post)
(check-synth)
