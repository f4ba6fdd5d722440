; One less, but not below 0. Shows: a function of two cases.
(set-logic BV)
(define-sort Word () (_ BitVec 16))
(synth-fun less ((x Word)) Word
  ((S Word) (C Bool))
  ((S Word (x #x0000 #x0001 (bvsub S S) (ite C S S)))
   (C Bool ((= S S)))))
(declare-var x Word)
(constraint (=> (= x #x0000) (= (less x) #x0000)))
(constraint (=> (distinct x #x0000) (= (bvadd (less x) #x0001) x)))
(check-synth)
