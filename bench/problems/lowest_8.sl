; The lowest bit that is set, alone, at width 8.
(set-logic BV)
(synth-fun f ((x (_ BitVec 8))) (_ BitVec 8)
  ((S (_ BitVec 8)))
  ((S (_ BitVec 8) (x #x00 #x01 (bvnot S) (bvand S S) (bvor S S) (bvxor S S) (bvadd S S) (bvsub S S)))))
(declare-var x (_ BitVec 8))
(constraint (= (f x) (bvand x (bvadd (bvnot x) #x01))))
(check-synth)
