; The same sum by one equation.
; words: --nodes 4
(set-logic LIA)
(synth-fun total ((x Int) (y Int)) Int
  ((S Int))
  ((S Int (x y (+ S S)))))
(declare-var x Int)
(declare-var y Int)
(constraint (= (total x y) (+ x y)))
(check-synth)
