; A counter up to a limit, with four more variables.
(set-logic LIA)
(synth-inv inv ((i Int) (n Int) (a Int) (b Int) (c Int) (d Int)))
(define-fun pre ((i Int) (n Int) (a Int) (b Int) (c Int) (d Int)) Bool (and (= i 0) (>= n 0) (= a 0) (= b 0) (= c 0) (= d 0)))
(define-fun trans ((i Int) (n Int) (a Int) (b Int) (c Int) (d Int) (i1 Int) (n1 Int) (a1 Int) (b1 Int) (c1 Int) (d1 Int)) Bool (and (< i n) (= i1 (+ i 1)) (= n1 n) (= a1 b) (= b1 c) (= c1 d) (= d1 a)))
(define-fun post ((i Int) (n Int) (a Int) (b Int) (c Int) (d Int)) Bool (=> (not (< i n)) (= i n)))
(inv-constraint inv pre trans post)
(check-synth)
