(set-logic BV)
(define-fun g ((x (_ BitVec 8))) (_ BitVec 8))
