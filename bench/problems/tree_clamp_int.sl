; A number moved between two bounds, over integers.
; leaves: 3
(set-logic LIA)
(synth-fun f ((x Int) (a Int) (b Int)) Int)
(declare-var x Int)
(declare-var a Int)
(declare-var b Int)
(assume (<= a b))
(constraint (<= a (f x a b)))
(constraint (<= (f x a b) b))
(constraint (=> (and (<= a x) (<= x b)) (= (f x a b) x)))
(constraint (=> (<= x a) (= (f x a b) a)))
(constraint (=> (<= b x) (= (f x a b) b)))
(check-synth)
