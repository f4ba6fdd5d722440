; The same with twice as many, and larger sizes.
; words: --bank 40000 --size 20
(set-logic BV)
(synth-fun f ((x (_ BitVec 32))) (_ BitVec 32)
  ((S (_ BitVec 32)))
  ((S (_ BitVec 32) (x #x00000002 #x0000001f #x0000001e (bvnot S) (bvneg S) (bvand S S) (bvor S S) (bvxor S S) (bvadd S S) (bvsub S S) (bvmul S S) (bvudiv S S) (bvshl S S) (bvlshr S S) (bvashr S S)))))
(declare-var x (_ BitVec 32))
(constraint (= (f x) (bvsdiv x #x00000004)))
(check-synth)
