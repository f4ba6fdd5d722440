; The magnitude of a signed number, at width 8.
(set-logic BV)
(synth-fun f ((x (_ BitVec 8))) (_ BitVec 8)
  ((S (_ BitVec 8)))
  ((S (_ BitVec 8) (x #x07 (bvxor S S) (bvadd S S) (bvsub S S) (bvand S S) (bvor S S) (bvashr S S)))))
(declare-var x (_ BitVec 8))
(constraint (= (f x) (ite (bvslt x #x00) (bvneg x) x)))
(check-synth)
