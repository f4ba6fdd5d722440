; Half of a number, by what is assumed.
(set-logic LIA)
(synth-fun f ((x Int) (h Int)) Int)
(declare-var x Int)
(declare-var h Int)
(assume (= x (+ h h)))
(constraint (= (+ (f x h) (f x h)) x))
(check-synth)
