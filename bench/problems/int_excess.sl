; By how much a number is outside of two bounds.
; leaves: 3
(set-logic LIA)
(synth-fun f ((x Int) (a Int) (b Int)) Int)
(declare-var x Int)
(declare-var a Int)
(declare-var b Int)
(assume (<= a b))
(constraint (= (f x a b) (ite (< x a) (- a x) (ite (> x b) (- x b) 0))))
(check-synth)
