; Whether two numbers have as many leading zeros, by their bits, at width 32.
(set-logic BV)
(synth-fun p ((x (_ BitVec 32)) (y (_ BitVec 32))) Bool
  ((B Bool) (S (_ BitVec 32)))
  ((B Bool ((bvule S S) (bvult S S) (not B)))
   (S (_ BitVec 32) (x y (bvand S S) (bvor S S) (bvxor S S) (bvadd S S) (bvsub S S) (bvnot S)))))
(declare-var x (_ BitVec 32))
(declare-var y (_ BitVec 32))
(constraint (= (p x y) (not (bvugt (bvxor x y) (bvand x y)))))
(check-synth)
