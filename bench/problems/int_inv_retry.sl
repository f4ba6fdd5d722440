; Tries, at most five, each of which fails or succeeds.
(set-logic LIA)
(synth-inv inv ((tries Int) (failed Int) (good Int)))
(define-fun pre ((tries Int) (failed Int) (good Int)) Bool (and (= tries 0) (= failed 0) (= good 0)))
(define-fun trans ((tries Int) (failed Int) (good Int) (tries1 Int) (failed1 Int) (good1 Int)) Bool (and (< tries 5) (= tries1 (+ tries 1)) (or (and (= failed1 (+ failed 1)) (= good1 good)) (and (= failed1 failed) (= good1 (+ good 1))))))
(define-fun post ((tries Int) (failed Int) (good Int)) Bool (and (= tries (+ failed good)) (<= failed 5)))
(inv-constraint inv pre trans post)
(check-synth)
