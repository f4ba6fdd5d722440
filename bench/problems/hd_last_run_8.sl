; The last run of ones turned off, at width 8, with twelve operators (Hacker's Delight, section 2-1).
; A solution of size 8: (bvand (bvadd (bvand x (bvneg x)) x) x)
(set-logic BV)
(synth-fun f ((x (_ BitVec 8))) (_ BitVec 8)
  ((S (_ BitVec 8)))
  ((S (_ BitVec 8) (x #x01 (bvnot S) (bvneg S) (bvand S S) (bvor S S) (bvxor S S) (bvadd S S) (bvsub S S) (bvmul S S) (bvudiv S S) (bvshl S S) (bvlshr S S) (bvashr S S)))))
(declare-var x (_ BitVec 8))
(constraint (= (f x) (bvand x (bvadd (bvor x (bvsub x #x01)) #x01))))
(check-synth)
