; The same of 4 bits. The answer holds for 16 bits too, but that isn't proved here.
; words: --clauses 10000
(set-logic BV)
(define-sort Word () (_ BitVec 4))
(synth-fun product ((x Word) (y Word)) Word
  ((S Word))
  ((S Word (x y (bvmul S S)))))
(declare-var x Word)
(declare-var y Word)
(constraint (= (product x y) (bvadd (bvmul (bvand x #x3) y) (bvmul (bvand x #xc) y))))
(check-synth)
