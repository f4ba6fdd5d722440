; The absolute value of a word of 64 bits without a branch. Shows: a reference definition, and a grammar without `ite`.
(set-logic BV)
(define-sort Word () (_ BitVec 64))
(define-fun reference ((x Word)) Word (ite (bvslt x #x0000000000000000) (bvneg x) x))
(synth-fun abs ((x Word)) Word
  ((S Word) (M Word))
  ((S Word (x M (bvxor S S) (bvsub S S)))
   (M Word ((bvashr x #x000000000000003f)))))
(declare-var x Word)
(constraint (= (abs x) (reference x)))
(check-synth)
