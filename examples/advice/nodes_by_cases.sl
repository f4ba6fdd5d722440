; A sum, said by three cases: one number is 0, the other is, or neither.
; words: --nodes 4
; answer: fail Nodes
(set-logic LIA)
(synth-fun total ((x Int) (y Int)) Int
  ((S Int))
  ((S Int (x y (+ S S)))))
(declare-var x Int)
(declare-var y Int)
(constraint (or (and (= x 0) (= (total x y) y)) (and (= y 0) (= (total x y) x)) (and (distinct x 0) (distinct y 0) (= (total x y) (+ x y)))))
(check-synth)
