; The trailing ones, cleared, at width 32.
(set-logic BV)
(synth-fun f ((x (_ BitVec 32))) (_ BitVec 32)
  ((S (_ BitVec 32)))
  ((S (_ BitVec 32) (x #x00000000 #x00000001 (bvnot S) (bvneg S) (bvand S S) (bvor S S) (bvxor S S) (bvadd S S) (bvsub S S) (bvlshr S S)))))
(declare-var x (_ BitVec 32))
(constraint (= (f x) (bvsub x (bvand x (bvxor x (bvadd x #x00000001))))))
(check-synth)
