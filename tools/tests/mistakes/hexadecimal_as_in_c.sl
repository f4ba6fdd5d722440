(set-logic BV)
(declare-var x (_ BitVec 8))
(constraint (= x 0x0f))
