; An even function that is no less than its argument.
; leaves: 2
(set-logic LIA)
(synth-fun f ((x Int)) Int)
(declare-var x Int)
(constraint (= (f x) (f (- x))))
(constraint (>= (f x) x))
(constraint (or (= (f x) x) (= (f x) (- x))))
(check-synth)
