; Each of three numbers counts where it isn't negative.
(set-logic LIA)
(synth-fun f ((x Int) (y Int) (z Int)) Int)
(declare-var x Int)
(declare-var y Int)
(declare-var z Int)
(constraint (= (f x y z) (+ (+ (ite (>= x 0) x 0) (ite (>= y 0) y 0)) (ite (>= z 0) z 0))))
(check-synth)
