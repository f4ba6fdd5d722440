; A third number put between two that are in order.
; leaves: 4
(set-logic LIA)
(synth-fun first ((x Int) (y Int) (z Int)) Int)
(synth-fun last ((x Int) (y Int) (z Int)) Int)
(declare-var x Int)
(declare-var y Int)
(declare-var z Int)
(assume (<= x y))
(constraint (and (<= (first x y z) x) (<= (first x y z) z)))
(constraint (or (= (first x y z) x) (= (first x y z) z)))
(constraint (and (>= (last x y z) y) (>= (last x y z) z)))
(constraint (or (= (last x y z) y) (= (last x y z) z)))
(check-synth)
