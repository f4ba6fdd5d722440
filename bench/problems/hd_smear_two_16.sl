; Ones spread to the right by three places, at width 16, with twelve operators (Hacker's Delight, section 3-2).
; A solution of size 13: (bvor (bvor x (bvlshr x #x0001)) (bvlshr (bvor x (bvlshr x #x0001)) #x0002))
(set-logic BV)
(synth-fun f ((x (_ BitVec 16))) (_ BitVec 16)
  ((S (_ BitVec 16)))
  ((S (_ BitVec 16) (x #x0001 #x0002 (bvnot S) (bvneg S) (bvand S S) (bvor S S) (bvxor S S) (bvadd S S) (bvsub S S) (bvmul S S) (bvudiv S S) (bvshl S S) (bvlshr S S) (bvashr S S)))))
(declare-var x (_ BitVec 16))
(constraint (= (f x) (bvor (bvor x (bvlshr x #x0001)) (bvor (bvlshr x #x0002) (bvlshr x #x0003)))))
(check-synth)
