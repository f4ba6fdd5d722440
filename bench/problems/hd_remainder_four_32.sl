; The remainder by four, with the sign of the number, at width 32, with twelve operators (Hacker's Delight, section 10-2).
; A solution of size 15: (bvsub (bvand (bvadd x (bvlshr (bvashr x #x0000001f) #x0000001e)) #x00000003) (bvlshr (bvashr x #x0000001f) #x0000001e))
(set-logic BV)
(synth-fun f ((x (_ BitVec 32))) (_ BitVec 32)
  ((S (_ BitVec 32)))
  ((S (_ BitVec 32) (x #x00000003 #x0000001f #x0000001e (bvnot S) (bvneg S) (bvand S S) (bvor S S) (bvxor S S) (bvadd S S) (bvsub S S) (bvmul S S) (bvudiv S S) (bvshl S S) (bvlshr S S) (bvashr S S)))))
(declare-var x (_ BitVec 32))
(constraint (= (f x) (bvsrem x #x00000004)))
(check-synth)
