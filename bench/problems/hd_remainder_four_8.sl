; The remainder by four, with the sign of the number, at width 8, with twelve operators (Hacker's Delight, section 10-2).
; A solution of size 15: (bvsub (bvand (bvadd x (bvlshr (bvashr x #x07) #x06)) #x03) (bvlshr (bvashr x #x07) #x06))
(set-logic BV)
(synth-fun f ((x (_ BitVec 8))) (_ BitVec 8)
  ((S (_ BitVec 8)))
  ((S (_ BitVec 8) (x #x03 #x07 #x06 (bvnot S) (bvneg S) (bvand S S) (bvor S S) (bvxor S S) (bvadd S S) (bvsub S S) (bvmul S S) (bvudiv S S) (bvshl S S) (bvlshr S S) (bvashr S S)))))
(declare-var x (_ BitVec 8))
(constraint (= (f x) (bvsrem x #x04)))
(check-synth)
