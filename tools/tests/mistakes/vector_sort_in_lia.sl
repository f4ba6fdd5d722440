(set-logic LIA)
(declare-var x (_ BitVec 8))
