(set-logic LIA)
(declare-var x Int)
(constraint (bvult x x))
