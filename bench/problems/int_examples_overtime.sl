; Pay of 10 an hour, and 15 beyond the eighth.
; leaves: 2
(set-logic LIA)
(synth-fun f ((h Int)) Int)
(constraint (= (f 0) 0))
(constraint (= (f 1) 10))
(constraint (= (f 4) 40))
(constraint (= (f 8) 80))
(constraint (= (f 9) 95))
(constraint (= (f 10) 110))
(constraint (= (f 12) 140))
(check-synth)
