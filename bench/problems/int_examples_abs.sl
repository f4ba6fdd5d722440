; A number without its sign.
; leaves: 2
(set-logic LIA)
(synth-fun f ((x Int)) Int)
(constraint (= (f 0) 0))
(constraint (= (f 1) 1))
(constraint (= (f (- 1)) 1))
(constraint (= (f 7) 7))
(constraint (= (f (- 7)) 7))
(constraint (= (f 12) 12))
(constraint (= (f (- 30)) 30))
(check-synth)
