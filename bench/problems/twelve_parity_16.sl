; A number made even, with twelve operators, at width 16.
(set-logic BV)
(synth-fun f ((x (_ BitVec 16))) (_ BitVec 16)
  ((S (_ BitVec 16)))
  ((S (_ BitVec 16) (x #x0001 (bvnot S) (bvneg S) (bvand S S) (bvor S S) (bvxor S S) (bvadd S S) (bvsub S S) (bvmul S S) (bvudiv S S) (bvshl S S) (bvlshr S S) (bvashr S S)))))
(declare-var x (_ BitVec 16))
(constraint (= (f x) (concat ((_ extract 15 1) x) #b0)))
(check-synth)
