; The lowest bit that is set, alone, at width 64.
(set-logic BV)
(synth-fun f ((x (_ BitVec 64))) (_ BitVec 64)
  ((S (_ BitVec 64)))
  ((S (_ BitVec 64) (x #x0000000000000000 #x0000000000000001 (bvnot S) (bvand S S) (bvor S S) (bvxor S S) (bvadd S S) (bvsub S S)))))
(declare-var x (_ BitVec 64))
(constraint (= (f x) (bvand x (bvadd (bvnot x) #x0000000000000001))))
(check-synth)
