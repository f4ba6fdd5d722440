; A function that is called twice is asked at more than one tuple of arguments.
; words: --points 1
; answer: fail Points
(set-logic BV)
(synth-fun f ((x (_ BitVec 8))) (_ BitVec 8)
  ((S (_ BitVec 8)))
  ((S (_ BitVec 8) (x #x01 (bvnot S) (bvadd S S)))))
(declare-var x (_ BitVec 8))
(constraint (= (f (f x)) (bvadd x #x02)))
(check-synth)
