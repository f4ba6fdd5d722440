; The lowest run of ones, cleared, with twelve operators, at width 64.
(set-logic BV)
(synth-fun f ((x (_ BitVec 64))) (_ BitVec 64)
  ((S (_ BitVec 64)))
  ((S (_ BitVec 64) (x #x0000000000000001 (bvnot S) (bvneg S) (bvand S S) (bvor S S) (bvxor S S) (bvadd S S) (bvsub S S) (bvmul S S) (bvudiv S S) (bvshl S S) (bvlshr S S) (bvashr S S)))))
(declare-var x (_ BitVec 64))
(constraint (= (f x) (bvand x (bvadd x (bvand x (bvneg x))))))
(check-synth)
