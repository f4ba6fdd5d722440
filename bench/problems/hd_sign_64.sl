; The sign as -1, 0 or 1, at width 64, with twelve operators (Hacker's Delight, section 2-8).
; A solution of size 8: (bvor (bvashr x #x000000000000003f) (bvlshr (bvneg x) #x000000000000003f))
(set-logic BV)
(synth-fun f ((x (_ BitVec 64))) (_ BitVec 64)
  ((S (_ BitVec 64)))
  ((S (_ BitVec 64) (x #x0000000000000001 #x000000000000003f (bvnot S) (bvneg S) (bvand S S) (bvor S S) (bvxor S S) (bvadd S S) (bvsub S S) (bvmul S S) (bvudiv S S) (bvshl S S) (bvlshr S S) (bvashr S S)))))
(declare-var x (_ BitVec 64))
(constraint (= (f x) (ite (bvslt x #x0000000000000000) (bvneg #x0000000000000001) (ite (= x #x0000000000000000) #x0000000000000000 #x0000000000000001))))
(check-synth)
