; Whether at most one bit is set. Shows: a function that gives a truth value, known by what it says of two cases.
(set-logic BV)
(define-sort Word () (_ BitVec 32))
(synth-fun single ((x Word)) Bool
  ((B Bool) (S Word))
  ((B Bool ((= S S)))
   (S Word (x #x00000000 #x00000001 (bvand S S) (bvsub S S)))))
(declare-var x Word)
(declare-var i Word)
(constraint (single (bvshl #x00000001 i)))
(constraint (=> (single x) (= (bvand x (bvneg x)) x)))
(check-synth)
