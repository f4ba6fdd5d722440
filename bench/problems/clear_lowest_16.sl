; The lowest bit that is set, cleared, at width 16.
(set-logic BV)
(synth-fun f ((x (_ BitVec 16))) (_ BitVec 16)
  ((S (_ BitVec 16)))
  ((S (_ BitVec 16) (x #x0000 #x0001 (bvnot S) (bvneg S) (bvand S S) (bvor S S) (bvxor S S) (bvadd S S)))))
(declare-var x (_ BitVec 16))
(constraint (= (f x) (bvsub x (bvand x (bvneg x)))))
(check-synth)
