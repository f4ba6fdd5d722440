; The sign, spread over all bits, at width 64.
(set-logic BV)
(synth-fun f ((x (_ BitVec 64))) (_ BitVec 64)
  ((S (_ BitVec 64)))
  ((S (_ BitVec 64) (x #x0000000000000001 #x000000000000003f (bvneg S) (bvnot S) (bvand S S) (bvor S S) (bvlshr S S) (bvashr S S)))))
(declare-var x (_ BitVec 64))
(constraint (= (f x) (ite (bvslt x #x0000000000000000) #xffffffffffffffff #x0000000000000000)))
(check-synth)
