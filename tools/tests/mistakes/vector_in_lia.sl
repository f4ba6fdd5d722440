(set-logic LIA)
(declare-var x Int)
(constraint (>= x #x0a))
