; The sign, spread over all bits, at width 32.
(set-logic BV)
(synth-fun f ((x (_ BitVec 32))) (_ BitVec 32)
  ((S (_ BitVec 32)))
  ((S (_ BitVec 32) (x #x00000001 #x0000001f (bvneg S) (bvnot S) (bvand S S) (bvor S S) (bvlshr S S) (bvashr S S)))))
(declare-var x (_ BitVec 32))
(constraint (= (f x) (ite (bvslt x #x00000000) #xffffffff #x00000000)))
(check-synth)
