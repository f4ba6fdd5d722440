; Minutes and seconds.
(set-logic LIA)
(synth-inv inv ((m Int) (s Int)))
(define-fun pre ((m Int) (s Int)) Bool (and (= m 0) (= s 0)))
(define-fun trans ((m Int) (s Int) (m1 Int) (s1 Int)) Bool (or (and (< s 59) (= m1 m) (= s1 (+ s 1))) (and (= s 59) (= s1 0) (or (and (< m 59) (= m1 (+ m 1))) (and (= m 59) (= m1 0))))))
(define-fun post ((m Int) (s Int)) Bool (and (<= 0 s) (< s 60) (<= 0 m) (< m 60)))
(inv-constraint inv pre trans post)
(check-synth)
