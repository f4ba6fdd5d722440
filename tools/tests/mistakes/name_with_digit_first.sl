(set-logic LIA)
(declare-var 2x Int)
