; A sum of at most ten numbers from 0 to 3.
(set-logic LIA)
(synth-inv inv ((i Int) (s Int) (x Int)))
(define-fun pre ((i Int) (s Int) (x Int)) Bool (and (= i 0) (= s 0)))
(define-fun trans ((i Int) (s Int) (x Int) (i1 Int) (s1 Int) (x1 Int)) Bool (and (< i 10) (= i1 (+ i 1)) (<= 0 x1) (<= x1 3) (= s1 (+ s x1))))
(define-fun post ((i Int) (s Int) (x Int)) Bool (=> (not (< i 10)) (<= s 30)))
(inv-constraint inv pre trans post)
(check-synth)
