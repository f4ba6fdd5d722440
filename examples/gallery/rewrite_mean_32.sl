; The mean of two words of 32 bits, rounded down, without a wider word. Shows: a reference that says the same in another way.
(set-logic BV)
(define-sort Word () (_ BitVec 32))
(synth-fun mean ((x Word) (y Word)) Word
  ((S Word))
  ((S Word (x y (bvand S S) (bvxor S S) (bvadd S S) (bvlshr S #x00000001)))))
(declare-var x Word)
(declare-var y Word)
(constraint (= (mean x y) (bvadd (bvadd (bvlshr x #x00000001) (bvlshr y #x00000001)) (bvand (bvand x y) #x00000001))))
(check-synth)
