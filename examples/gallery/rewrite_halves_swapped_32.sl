; The halves of a word swapped, by shifts. Shows: operators with indices as the reference.
(set-logic BV)
(define-sort Word () (_ BitVec 32))
(synth-fun swap ((x Word)) Word
  ((S Word))
  ((S Word (x (bvor S S) (bvshl S #x00000010) (bvlshr S #x00000010)))))
(declare-var x Word)
(constraint (= (swap x) ((_ rotate_left 16) x)))
(check-synth)
