(set-logic BV)
(declare-var x (_ BitVec 65))
