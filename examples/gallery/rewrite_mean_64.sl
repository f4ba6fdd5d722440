; The mean of two words of 64 bits, rounded down, without a wider word. Shows: a reference that says the same in another way.
(set-logic BV)
(define-sort Word () (_ BitVec 64))
(synth-fun mean ((x Word) (y Word)) Word
  ((S Word))
  ((S Word (x y (bvand S S) (bvxor S S) (bvadd S S) (bvlshr S #x0000000000000001)))))
(declare-var x Word)
(declare-var y Word)
(constraint (= (mean x y) (bvadd (bvadd (bvlshr x #x0000000000000001) (bvlshr y #x0000000000000001)) (bvand (bvand x y) #x0000000000000001))))
(check-synth)
