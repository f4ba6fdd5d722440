; Two ends that go towards each other.
(set-logic LIA)
(synth-inv inv ((low Int) (high Int) (n Int)))
(define-fun pre ((low Int) (high Int) (n Int)) Bool (and (= low 0) (= high n) (>= n 0)))
(define-fun trans ((low Int) (high Int) (n Int) (low1 Int) (high1 Int) (n1 Int)) Bool (and (< low high) (= n1 n) (or (and (= low1 (+ low 1)) (= high1 high)) (and (= low1 low) (= high1 (- high 1))))))
(define-fun post ((low Int) (high Int) (n Int)) Bool (=> (not (< low high)) (and (<= 0 low) (<= low n) (= low high))))
(inv-constraint inv pre trans post)
(check-synth)
