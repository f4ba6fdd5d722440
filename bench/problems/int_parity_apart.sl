; An even and an odd number are apart.
(set-logic LIA)
(synth-fun f ((x Int) (y Int)) Int)
(declare-var x Int)
(declare-var y Int)
(constraint (distinct (* 2 (f x y)) (+ (* 4 x) (+ (* 2 y) 1))))
(constraint (> (f x y) (+ x y)))
(check-synth)
