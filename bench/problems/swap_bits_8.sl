; Pairs of bits that change places, at width 8.
(set-logic BV)
(synth-fun f ((x (_ BitVec 8))) (_ BitVec 8)
  ((S (_ BitVec 8)))
  ((S (_ BitVec 8) (x #x55 #xaa (bvand S S) (bvor S S) (bvxor S S) (bvshl S #x01) (bvlshr S #x01)))))
(declare-var x (_ BitVec 8))
(constraint (= (f x) (concat ((_ extract 6 6) x) (concat ((_ extract 7 7) x) (concat ((_ extract 4 4) x) (concat ((_ extract 5 5) x) (concat ((_ extract 2 2) x) (concat ((_ extract 3 3) x) (concat ((_ extract 0 0) x) ((_ extract 1 1) x))))))))))
(check-synth)
