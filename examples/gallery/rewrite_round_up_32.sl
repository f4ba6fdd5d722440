; The next multiple of 8 of 32 bits, by one sum and one mask. Shows: constants that the answer needs stand in the grammar.
(set-logic BV)
(define-sort Word () (_ BitVec 32))
(synth-fun round ((x Word)) Word
  ((S Word))
  ((S Word (x #x00000007 (bvadd S S) (bvand S S) (bvnot S)))))
(declare-var x Word)
(constraint (= (round x) (bvshl (bvlshr (bvadd x #x00000007) #x00000003) #x00000003)))
(check-synth)
