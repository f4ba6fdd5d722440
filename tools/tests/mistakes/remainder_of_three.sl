(set-logic LIA)
(declare-var x Int)
(constraint (= 0 (mod x 4 2)))
