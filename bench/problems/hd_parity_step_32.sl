; The parity of four neighbouring bits, at width 32, with twelve operators (Hacker's Delight, section 5-2).
; A solution of size 13: (bvxor (bvxor x (bvlshr x #x00000001)) (bvlshr (bvxor x (bvlshr x #x00000001)) #x00000002))
(set-logic BV)
(synth-fun f ((x (_ BitVec 32))) (_ BitVec 32)
  ((S (_ BitVec 32)))
  ((S (_ BitVec 32) (x #x00000001 #x00000002 (bvnot S) (bvneg S) (bvand S S) (bvor S S) (bvxor S S) (bvadd S S) (bvsub S S) (bvmul S S) (bvudiv S S) (bvshl S S) (bvlshr S S) (bvashr S S)))))
(declare-var x (_ BitVec 32))
(constraint (= (f x) (bvxor (bvxor x (bvlshr x #x00000001)) (bvxor (bvlshr x #x00000002) (bvlshr x #x00000003)))))
(check-synth)
