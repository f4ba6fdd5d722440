(set-logic LIA)
(declare-var x Int)
(declare-var y Int)
(constraint (>= (* x y) 0))
