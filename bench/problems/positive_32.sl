; A signed number, and zero in place of a negative one, at width 32.
(set-logic BV)
(synth-fun f ((x (_ BitVec 32))) (_ BitVec 32)
  ((S (_ BitVec 32)))
  ((S (_ BitVec 32) (x #x0000001f (bvand S S) (bvxor S S) (bvsub S S) (bvnot S) (bvashr S S) (bvor S S)))))
(declare-var x (_ BitVec 32))
(constraint (= (f x) (ite (bvslt x #x00000000) #x00000000 x)))
(check-synth)
