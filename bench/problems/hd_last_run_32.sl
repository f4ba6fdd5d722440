; The last run of ones turned off, at width 32, with twelve operators (Hacker's Delight, section 2-1).
; A solution of size 8: (bvand (bvadd (bvand x (bvneg x)) x) x)
(set-logic BV)
(synth-fun f ((x (_ BitVec 32))) (_ BitVec 32)
  ((S (_ BitVec 32)))
  ((S (_ BitVec 32) (x #x00000001 (bvnot S) (bvneg S) (bvand S S) (bvor S S) (bvxor S S) (bvadd S S) (bvsub S S) (bvmul S S) (bvudiv S S) (bvshl S S) (bvlshr S S) (bvashr S S)))))
(declare-var x (_ BitVec 32))
(constraint (= (f x) (bvand x (bvadd (bvor x (bvsub x #x00000001)) #x00000001))))
(check-synth)
