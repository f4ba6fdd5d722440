; The magnitude of a signed number, at width 16.
(set-logic BV)
(synth-fun f ((x (_ BitVec 16))) (_ BitVec 16)
  ((S (_ BitVec 16)))
  ((S (_ BitVec 16) (x #x000f (bvxor S S) (bvadd S S) (bvsub S S) (bvand S S) (bvor S S) (bvashr S S)))))
(declare-var x (_ BitVec 16))
(constraint (= (f x) (ite (bvslt x #x0000) (bvneg x) x)))
(check-synth)
