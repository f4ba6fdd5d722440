; The same with a larger bound.
; words: --size 23
(set-logic BV)
(synth-fun f () (_ BitVec 8)
  ((S (_ BitVec 8)))
  ((S (_ BitVec 8) (#x01 (bvadd #x01 S)))))
(constraint (= f #x0c))
(check-synth)
