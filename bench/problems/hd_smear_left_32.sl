; Ones spread to the left by three places, at width 32, with twelve operators (Hacker's Delight, section 3-2).
; A solution of size 13: (bvor (bvor x (bvshl x #x00000001)) (bvshl (bvor x (bvshl x #x00000001)) #x00000002))
(set-logic BV)
(synth-fun f ((x (_ BitVec 32))) (_ BitVec 32)
  ((S (_ BitVec 32)))
  ((S (_ BitVec 32) (x #x00000001 #x00000002 (bvnot S) (bvneg S) (bvand S S) (bvor S S) (bvxor S S) (bvadd S S) (bvsub S S) (bvmul S S) (bvudiv S S) (bvshl S S) (bvlshr S S) (bvashr S S)))))
(declare-var x (_ BitVec 32))
(constraint (= (f x) (bvor (bvor x (bvshl x #x00000001)) (bvor (bvshl x #x00000002) (bvshl x #x00000003)))))
(check-synth)
