; A number between two others.
(set-logic LIA)
(synth-inv inv ((low Int) (x Int) (high Int)))
(define-fun pre ((low Int) (x Int) (high Int)) Bool (and (<= low x) (<= x high)))
(define-fun trans ((low Int) (x Int) (high Int) (low1 Int) (x1 Int) (high1 Int)) Bool (and (= low1 (- low 1)) (= high1 (+ high 1)) (= x1 x)))
(define-fun post ((low Int) (x Int) (high Int)) Bool (and (<= low x) (<= x high)))
(inv-constraint inv pre trans post)
(check-synth)
