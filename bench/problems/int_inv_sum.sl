; A sum of counters stays positive.
(set-logic LIA)
(synth-inv inv ((i Int) (s Int)))
(define-fun pre ((i Int) (s Int)) Bool (and (= i 0) (= s 0)))
(define-fun trans ((i Int) (s Int) (i1 Int) (s1 Int)) Bool (and (= s1 (+ s i)) (= i1 (+ i 1))))
(define-fun post ((i Int) (s Int)) Bool (>= s 0))
(inv-constraint inv pre trans post)
(check-synth)
