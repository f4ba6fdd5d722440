; The lowest run of ones, cleared, at width 8.
(set-logic BV)
(synth-fun f ((x (_ BitVec 8))) (_ BitVec 8)
  ((S (_ BitVec 8)))
  ((S (_ BitVec 8) (x #x01 (bvand S S) (bvor S S) (bvxor S S) (bvadd S S) (bvneg S) (bvnot S)))))
(declare-var x (_ BitVec 8))
(constraint (= (f x) (bvand x (bvadd x (bvand x (bvneg x))))))
(check-synth)
