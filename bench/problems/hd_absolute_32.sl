; The absolute value, at width 32, with twelve operators (Hacker's Delight, section 2-4).
; A solution of size 9: (bvsub (bvxor x (bvashr x #x0000001f)) (bvashr x #x0000001f))
(set-logic BV)
(synth-fun f ((x (_ BitVec 32))) (_ BitVec 32)
  ((S (_ BitVec 32)))
  ((S (_ BitVec 32) (x #x00000001 #x0000001f (bvnot S) (bvneg S) (bvand S S) (bvor S S) (bvxor S S) (bvadd S S) (bvsub S S) (bvmul S S) (bvudiv S S) (bvshl S S) (bvlshr S S) (bvashr S S)))))
(declare-var x (_ BitVec 32))
(constraint (= (f x) (ite (bvslt x #x00000000) (bvneg x) x)))
(check-synth)
