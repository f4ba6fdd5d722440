; The sign, spread over all bits, at width 8.
(set-logic BV)
(synth-fun f ((x (_ BitVec 8))) (_ BitVec 8)
  ((S (_ BitVec 8)))
  ((S (_ BitVec 8) (x #x01 #x07 (bvneg S) (bvnot S) (bvand S S) (bvor S S) (bvlshr S S) (bvashr S S)))))
(declare-var x (_ BitVec 8))
(constraint (= (f x) (ite (bvslt x #x00) #xff #x00)))
(check-synth)
