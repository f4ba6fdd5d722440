; Divisible by two and by three.
(set-logic LIA)
(synth-fun f ((a Int) (b Int)) Int)
(declare-var a Int)
(declare-var b Int)
(assume (= (* 2 a) (* 3 b)))
(constraint (= (* 3 (f a b)) a))
(check-synth)
