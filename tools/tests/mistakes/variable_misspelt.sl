(set-logic BV)
(declare-var counter (_ BitVec 8))
(constraint (bvult conter #x0a))
