; A counter up to a limit, with eight more variables.
(set-logic LIA)
(synth-inv inv ((i Int) (n Int) (a Int) (b Int) (c Int) (d Int) (e Int) (f Int) (g Int) (h Int)))
(define-fun pre ((i Int) (n Int) (a Int) (b Int) (c Int) (d Int) (e Int) (f Int) (g Int) (h Int)) Bool (and (= i 0) (>= n 0) (= a 0)))
(define-fun trans ((i Int) (n Int) (a Int) (b Int) (c Int) (d Int) (e Int) (f Int) (g Int) (h Int) (i1 Int) (n1 Int) (a1 Int) (b1 Int) (c1 Int) (d1 Int) (e1 Int) (f1 Int) (g1 Int) (h1 Int)) Bool (and (< i n) (= i1 (+ i 1)) (= n1 n) (= a1 a) (= b1 b) (= c1 c) (= d1 d) (= e1 e) (= f1 f) (= g1 g) (= h1 h)))
(define-fun post ((i Int) (n Int) (a Int) (b Int) (c Int) (d Int) (e Int) (f Int) (g Int) (h Int)) Bool (=> (not (< i n)) (= i n)))
(inv-constraint inv pre trans post)
(check-synth)
