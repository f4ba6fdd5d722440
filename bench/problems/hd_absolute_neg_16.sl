; The negated absolute value, at width 16, with twelve operators (Hacker's Delight, section 2-4).
; A solution of size 9: (bvsub (bvashr x #x000f) (bvxor x (bvashr x #x000f)))
(set-logic BV)
(synth-fun f ((x (_ BitVec 16))) (_ BitVec 16)
  ((S (_ BitVec 16)))
  ((S (_ BitVec 16) (x #x0001 #x000f (bvnot S) (bvneg S) (bvand S S) (bvor S S) (bvxor S S) (bvadd S S) (bvsub S S) (bvmul S S) (bvudiv S S) (bvshl S S) (bvlshr S S) (bvashr S S)))))
(declare-var x (_ BitVec 16))
(constraint (= (f x) (ite (bvslt x #x0000) x (bvneg x))))
(check-synth)
