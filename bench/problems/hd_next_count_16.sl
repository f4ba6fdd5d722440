; The next greater number with as many ones, without the ones at its end, at width 16, with twelve operators (Hacker's Delight, section 2-1).
; A solution of size 13: (bvudiv (bvxor x (bvadd x (bvand x (bvneg x)))) (bvand x (bvneg x)))
(set-logic BV)
(synth-fun f ((x (_ BitVec 16))) (_ BitVec 16)
  ((S (_ BitVec 16)))
  ((S (_ BitVec 16) (x #x0001 (bvnot S) (bvneg S) (bvand S S) (bvor S S) (bvxor S S) (bvadd S S) (bvsub S S) (bvmul S S) (bvudiv S S) (bvshl S S) (bvlshr S S) (bvashr S S)))))
(declare-var x (_ BitVec 16))
(constraint (= (f x) (bvudiv (bvxor (bvadd (bvand x (bvneg x)) x) x) (bvand (bvneg x) x))))
(check-synth)
