; The middle one of three numbers, over integers.
; leaves: 6
(set-logic LIA)
(synth-fun f ((x Int) (y Int) (z Int)) Int)
(declare-var x Int)
(declare-var y Int)
(declare-var z Int)
(constraint (=> (and (<= x y) (<= y z)) (= (f x y z) y)))
(constraint (=> (and (<= x z) (<= z y)) (= (f x y z) z)))
(constraint (=> (and (<= y x) (<= x z)) (= (f x y z) x)))
(constraint (=> (and (<= y z) (<= z x)) (= (f x y z) z)))
(constraint (=> (and (<= z x) (<= x y)) (= (f x y z) x)))
(constraint (=> (and (<= z y) (<= y x)) (= (f x y z) y)))
(check-synth)
