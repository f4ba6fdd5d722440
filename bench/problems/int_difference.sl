; How far two numbers are apart.
; leaves: 2
(set-logic LIA)
(synth-fun f ((x Int) (y Int)) Int)
(declare-var x Int)
(declare-var y Int)
(constraint (= (f x y) (ite (>= x y) (- x y) (- y x))))
(check-synth)
