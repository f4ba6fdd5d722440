; The next multiple of 8 of 64 bits, by one sum and one mask. Shows: constants that the answer needs stand in the grammar.
(set-logic BV)
(define-sort Word () (_ BitVec 64))
(synth-fun round ((x Word)) Word
  ((S Word))
  ((S Word (x #x0000000000000007 (bvadd S S) (bvand S S) (bvnot S)))))
(declare-var x Word)
(constraint (= (round x) (bvshl (bvlshr (bvadd x #x0000000000000007) #x0000000000000003) #x0000000000000003)))
(check-synth)
