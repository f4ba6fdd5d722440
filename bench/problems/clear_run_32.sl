; The lowest run of ones, cleared, at width 32.
(set-logic BV)
(synth-fun f ((x (_ BitVec 32))) (_ BitVec 32)
  ((S (_ BitVec 32)))
  ((S (_ BitVec 32) (x #x00000001 (bvand S S) (bvor S S) (bvxor S S) (bvadd S S) (bvneg S) (bvnot S)))))
(declare-var x (_ BitVec 32))
(constraint (= (f x) (bvand x (bvadd x (bvand x (bvneg x))))))
(check-synth)
