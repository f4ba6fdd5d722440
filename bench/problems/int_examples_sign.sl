; The sign of a number.
; leaves: 3
(set-logic LIA)
(synth-fun f ((x Int)) Int)
(constraint (= (f 0) 0))
(constraint (= (f 1) 1))
(constraint (= (f (- 1)) (- 1)))
(constraint (= (f 7) 1))
(constraint (= (f (- 7)) (- 1)))
(constraint (= (f 12) 1))
(constraint (= (f (- 30)) (- 1)))
(check-synth)
