; Two ends of a search, by two branches.
(set-logic LIA)
(synth-inv inv ((low Int) (high Int) (n Int)))
(define-fun pre ((low Int) (high Int) (n Int)) Bool (and (= low 0) (= high n) (<= 0 n)))
(define-fun trans ((low Int) (high Int) (n Int) (low1 Int) (high1 Int) (n1 Int)) Bool (and (< low high) (= n1 n) (or (and (= high1 high) (< low low1) (<= low1 high)) (and (= low1 low) (<= low high1) (< high1 high)))))
(define-fun post ((low Int) (high Int) (n Int)) Bool (and (<= 0 low) (<= high n)))
(inv-constraint inv pre trans post)
(check-synth)
