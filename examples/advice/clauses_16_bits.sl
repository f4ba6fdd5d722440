; A product of two halves, of 16 bits: one hard query, given up after 10,000 clauses.
; words: --clauses 10000
; answer: fail Clauses
(set-logic BV)
(define-sort Word () (_ BitVec 16))
(synth-fun product ((x Word) (y Word)) Word
  ((S Word))
  ((S Word (x y (bvmul S S)))))
(declare-var x Word)
(declare-var y Word)
(constraint (= (product x y) (bvadd (bvmul (bvand x #x00ff) y) (bvmul (bvand x #xff00) y))))
(check-synth)
