; The reverse of a Gray code of four bits. Shows: a definition for what is needed twice, as a rule.
(set-logic BV)
(define-sort Half () (_ BitVec 4))
(define-fun gray ((x Half)) Half (bvxor x (bvlshr x #x1)))
(define-fun fold ((x Half) (n Half)) Half (bvxor x (bvlshr x n)))
(synth-fun back ((x Half)) Half
  ((S Half))
  ((S Half (x #x1 #x2 (fold S S)))))
(declare-var x Half)
(constraint (= (back (gray x)) x))
(check-synth)
