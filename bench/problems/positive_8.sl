; A signed number, and zero in place of a negative one, at width 8.
(set-logic BV)
(synth-fun f ((x (_ BitVec 8))) (_ BitVec 8)
  ((S (_ BitVec 8)))
  ((S (_ BitVec 8) (x #x07 (bvand S S) (bvxor S S) (bvsub S S) (bvnot S) (bvashr S S) (bvor S S)))))
(declare-var x (_ BitVec 8))
(constraint (= (f x) (ite (bvslt x #x00) #x00 x)))
(check-synth)
