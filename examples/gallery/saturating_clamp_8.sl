; A byte held between 10 and 20. Shows: properties that say when the answer is the argument itself.
(set-logic BV)
(define-sort Byte () (_ BitVec 8))
(synth-fun clamp ((x Byte)) Byte
  ((S Byte) (C Bool))
  ((S Byte (x #x0a #x14 (ite C S S)))
   (C Bool ((bvult S S)))))
(declare-var x Byte)
(constraint (and (bvule #x0a (clamp x)) (bvule (clamp x) #x14)))
(constraint (=> (and (bvule #x0a x) (bvule x #x14)) (= (clamp x) x)))
(constraint (=> (bvult x #x0a) (= (clamp x) #x0a)))
(constraint (=> (bvult #x14 x) (= (clamp x) #x14)))
(check-synth)
