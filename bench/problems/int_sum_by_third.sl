; One of two sums, by a third number.
; leaves: 2
(set-logic LIA)
(synth-fun f ((x Int) (y Int) (z Int)) Int)
(declare-var x Int)
(declare-var y Int)
(declare-var z Int)
(constraint (= (f x y z) (ite (>= z 0) (+ x y) (+ y z))))
(check-synth)
