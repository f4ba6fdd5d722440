; The same where one factor is a constant.
; words: --clauses 10000
(set-logic BV)
(define-sort Word () (_ BitVec 16))
(synth-fun product ((x Word)) Word
  ((S Word))
  ((S Word (x #x0003 (bvmul S S)))))
(declare-var x Word)
(constraint (= (product x) (bvadd (bvmul (bvand x #x00ff) #x0003) (bvmul (bvand x #xff00) #x0003))))
(check-synth)
