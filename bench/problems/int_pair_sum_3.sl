; The first sum of two neighbours above 5, else 0.
; leaves: 3
(set-logic LIA)
(synth-fun f ((x Int) (y Int) (z Int)) Int)
(declare-var x Int)
(declare-var y Int)
(declare-var z Int)
(constraint (=> (> (+ x y) 5) (= (f x y z) (+ x y))))
(constraint (=> (and (<= (+ x y) 5) (> (+ y z) 5)) (= (f x y z) (+ y z))))
(constraint (=> (and (<= (+ x y) 5) (<= (+ y z) 5)) (= (f x y z) 0)))
(check-synth)
