; The lowest bit that is clear, set, at width 8.
(set-logic BV)
(synth-fun f ((x (_ BitVec 8))) (_ BitVec 8)
  ((S (_ BitVec 8)))
  ((S (_ BitVec 8) (x #x00 #x01 (bvnot S) (bvneg S) (bvand S S) (bvor S S) (bvxor S S) (bvadd S S)))))
(declare-var x (_ BitVec 8))
(constraint (= (f x) (bvnot (bvand (bvnot x) (bvsub (bvnot x) #x01)))))
(check-synth)
