; The greater of two numbers.
; leaves: 2
(set-logic LIA)
(synth-fun f ((x Int) (y Int)) Int)
(constraint (= (f 3 5) 5))
(constraint (= (f 5 3) 5))
(constraint (= (f 0 0) 0))
(constraint (= (f (- 1) (- 7)) (- 1)))
(constraint (= (f (- 7) (- 1)) (- 1)))
(constraint (= (f 10 2) 10))
(constraint (= (f 2 10) 10))
(constraint (= (f 4 4) 4))
(check-synth)
