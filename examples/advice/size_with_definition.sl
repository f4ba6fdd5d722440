; The same with a rule that calls a definition: the body has size 4.
(set-logic BV)
(define-fun drop ((x (_ BitVec 8))) (_ BitVec 8) (bvand x (bvsub x #x01)))
(synth-fun f ((x (_ BitVec 8))) (_ BitVec 8)
  ((S (_ BitVec 8)))
  ((S (_ BitVec 8) (x (drop S) (bvand S S) (bvsub S #x01)))))
(declare-var x (_ BitVec 8))
(constraint (= (f x) (drop (drop (drop x)))))
(check-synth)
