; A buffer of ten places, by two branches.
(set-logic LIA)
(synth-inv inv ((put Int) (taken Int) (n Int)))
(define-fun pre ((put Int) (taken Int) (n Int)) Bool (and (= put 0) (= taken 0) (= n 0)))
(define-fun trans ((put Int) (taken Int) (n Int) (put1 Int) (taken1 Int) (n1 Int)) Bool (or (and (< n 10) (= put1 (+ put 1)) (= taken1 taken) (= n1 (+ n 1))) (and (> n 0) (= put1 put) (= taken1 (+ taken 1)) (= n1 (- n 1)))))
(define-fun post ((put Int) (taken Int) (n Int)) Bool (and (= (- put taken) n) (and (<= 0 n) (<= n 10))))
(inv-constraint inv pre trans post)
(check-synth)
