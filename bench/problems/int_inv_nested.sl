; Two loops, one in the other.
(set-logic LIA)
(synth-inv inv ((i Int) (j Int) (n Int)))
(define-fun pre ((i Int) (j Int) (n Int)) Bool (and (= i 0) (= j 0) (>= n 0)))
(define-fun trans ((i Int) (j Int) (n Int) (i1 Int) (j1 Int) (n1 Int)) Bool (or (and (< i n) (< j n) (= i1 i) (= j1 (+ j 1)) (= n1 n)) (and (< i n) (>= j n) (= i1 (+ i 1)) (= j1 0) (= n1 n))))
(define-fun post ((i Int) (j Int) (n Int)) Bool (=> (not (< i n)) (= i n)))
(inv-constraint inv pre trans post)
(check-synth)
