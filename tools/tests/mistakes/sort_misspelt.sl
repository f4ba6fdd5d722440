(set-logic BV)
(define-sort Byte () (_ BitVec 8))
(declare-var x Bite)
