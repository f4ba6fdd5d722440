; Whether three lengths are those of a triangle.
(set-logic LIA)
(synth-fun f ((a Int) (b Int) (c Int)) Bool)
(declare-var a Int)
(declare-var b Int)
(declare-var c Int)
(constraint (= (f a b c) (and (< a (+ b c)) (and (< b (+ a c)) (< c (+ a b))))))
(check-synth)
