; A lift between nine floors.
(set-logic LIA)
(synth-inv inv ((floor Int) (way Int)))
(define-fun pre ((floor Int) (way Int)) Bool (and (= floor 1) (= way 1)))
(define-fun trans ((floor Int) (way Int) (floor1 Int) (way1 Int)) Bool (or (and (= way 1) (< floor 9) (= floor1 (+ floor 1)) (= way1 way)) (or (and (= way 0) (> floor 1) (= floor1 (- floor 1)) (= way1 way)) (and (= floor1 floor) (= way1 (- 1 way))))))
(define-fun post ((floor Int) (way Int)) Bool (and (<= 1 floor) (<= floor 9)))
(inv-constraint inv pre trans post)
(check-synth)
