; An account that is never overdrawn, with what came and what went.
(set-logic LIA)
(synth-inv inv ((came Int) (went Int) (has Int)))
(define-fun pre ((came Int) (went Int) (has Int)) Bool (and (= came 0) (= went 0) (= has 0)))
(define-fun trans ((came Int) (went Int) (has Int) (came1 Int) (went1 Int) (has1 Int)) Bool (or (and (= came1 (+ came 5)) (= went1 went) (= has1 (+ has 5))) (and (>= has 2) (= came1 came) (= went1 (+ went 2)) (= has1 (- has 2)))))
(define-fun post ((came Int) (went Int) (has Int)) Bool (and (>= has 0) (= came (+ went has))))
(inv-constraint inv pre trans post)
(check-synth)
