; Twelve as a sum of ones has size 23.
; answer: fail Size
(set-logic BV)
(synth-fun f () (_ BitVec 8)
  ((S (_ BitVec 8)))
  ((S (_ BitVec 8) (#x01 (bvadd #x01 S)))))
(constraint (= f #x0c))
(check-synth)
