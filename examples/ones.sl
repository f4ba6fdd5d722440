; A sum of twelve ones has size 23, and bodies of at most 20 are sought: `--size 23` finds it.
; answer: fail Size
(set-logic BV)
(synth-fun f () (_ BitVec 8)
  ((S (_ BitVec 8)))
  ((S (_ BitVec 8) (#x01 (bvadd #x01 S)))))
(constraint (= f #x0c))
(check-synth)
