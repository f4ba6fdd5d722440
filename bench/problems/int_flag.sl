; A number with a sign that is given apart.
; leaves: 2
(set-logic LIA)
(synth-fun f ((s Bool) (x Int)) Int)
(declare-var s Bool)
(declare-var x Int)
(constraint (=> s (= (f s x) (- x))))
(constraint (=> (not s) (= (f s x) x)))
(check-synth)
