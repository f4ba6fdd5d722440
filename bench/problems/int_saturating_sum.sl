; A sum of two percentages that stays one.
; leaves: 2
(set-logic LIA)
(synth-fun f ((x Int) (y Int)) Int)
(declare-var x Int)
(declare-var y Int)
(assume (and (<= 0 x) (<= x 100) (<= 0 y) (<= y 100)))
(constraint (= (f x y) (ite (> (+ x y) 100) 100 (+ x y))))
(check-synth)
