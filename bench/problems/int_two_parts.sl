; The sum and the difference of two functions are given.
(set-logic LIA)
(synth-fun f ((x Int) (y Int)) Int)
(synth-fun g ((x Int) (y Int)) Int)
(declare-var x Int)
(declare-var y Int)
(constraint (= (+ (f x y) (g x y)) (+ x x)))
(constraint (= (- (f x y) (g x y)) (+ y y)))
(check-synth)
