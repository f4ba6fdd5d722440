; The absolute value, at width 8, with twelve operators (Hacker's Delight, section 2-4).
; A solution of size 9: (bvsub (bvxor x (bvashr x #x07)) (bvashr x #x07))
(set-logic BV)
(synth-fun f ((x (_ BitVec 8))) (_ BitVec 8)
  ((S (_ BitVec 8)))
  ((S (_ BitVec 8) (x #x01 #x07 (bvnot S) (bvneg S) (bvand S S) (bvor S S) (bvxor S S) (bvadd S S) (bvsub S S) (bvmul S S) (bvudiv S S) (bvshl S S) (bvlshr S S) (bvashr S S)))))
(declare-var x (_ BitVec 8))
(constraint (= (f x) (ite (bvslt x #x00) (bvneg x) x)))
(check-synth)
