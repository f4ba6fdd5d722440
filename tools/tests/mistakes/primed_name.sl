(set-logic LIA)
(synth-inv inv ((i Int)))
(define-fun trans ((i Int) (i' Int)) Bool (= i' (+ i 1)))
