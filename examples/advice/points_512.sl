; The same with as many as there are without the option.
(set-logic BV)
(synth-fun f ((x (_ BitVec 8))) (_ BitVec 8)
  ((S (_ BitVec 8)))
  ((S (_ BitVec 8) (x #x01 (bvnot S) (bvadd S S)))))
(declare-var x (_ BitVec 8))
(constraint (= (f (f x)) (bvadd x #x02)))
(check-synth)
