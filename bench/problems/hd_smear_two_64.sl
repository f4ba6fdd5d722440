; Ones spread to the right by three places, at width 64, with twelve operators (Hacker's Delight, section 3-2).
; A solution of size 13: (bvor (bvor x (bvlshr x #x0000000000000001)) (bvlshr (bvor x (bvlshr x #x0000000000000001)) #x0000000000000002))
(set-logic BV)
(synth-fun f ((x (_ BitVec 64))) (_ BitVec 64)
  ((S (_ BitVec 64)))
  ((S (_ BitVec 64) (x #x0000000000000001 #x0000000000000002 (bvnot S) (bvneg S) (bvand S S) (bvor S S) (bvxor S S) (bvadd S S) (bvsub S S) (bvmul S S) (bvudiv S S) (bvshl S S) (bvlshr S S) (bvashr S S)))))
(declare-var x (_ BitVec 64))
(constraint (= (f x) (bvor (bvor x (bvlshr x #x0000000000000001)) (bvor (bvlshr x #x0000000000000002) (bvlshr x #x0000000000000003)))))
(check-synth)
