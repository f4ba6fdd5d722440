; A counter up to a limit that isn't known.
(set-logic LIA)
(synth-inv inv ((i Int) (n Int)))
(define-fun pre ((i Int) (n Int)) Bool (and (= i 0) (>= n 0)))
(define-fun trans ((i Int) (n Int) (i1 Int) (n1 Int)) Bool (and (< i n) (= i1 (+ i 1)) (= n1 n)))
(define-fun post ((i Int) (n Int)) Bool (=> (not (< i n)) (= i n)))
(inv-constraint inv pre trans post)
(check-synth)
