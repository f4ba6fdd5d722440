; A rotation undone by another. Shows: operators with indices in a grammar.
(set-logic BV)
(define-sort Word () (_ BitVec 32))
(synth-fun back ((x Word)) Word
  ((S Word))
  ((S Word (x ((_ rotate_left 16) S) ((_ rotate_left 8) S) ((_ rotate_right 4) S)))))
(declare-var x Word)
(constraint (= (back ((_ rotate_left 20) x)) x))
(check-synth)
