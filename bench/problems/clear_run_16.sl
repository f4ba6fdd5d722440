; The lowest run of ones, cleared, at width 16.
(set-logic BV)
(synth-fun f ((x (_ BitVec 16))) (_ BitVec 16)
  ((S (_ BitVec 16)))
  ((S (_ BitVec 16) (x #x0001 (bvand S S) (bvor S S) (bvxor S S) (bvadd S S) (bvneg S) (bvnot S)))))
(declare-var x (_ BitVec 16))
(constraint (= (f x) (bvand x (bvadd x (bvand x (bvneg x))))))
(check-synth)
