; Nine times a word of 32 bits by a shift and a sum. Shows: a grammar that has only what is cheap.
(set-logic BV)
(define-sort Word () (_ BitVec 32))
(synth-fun nine ((x Word)) Word
  ((S Word) (N Word))
  ((S Word (x (bvadd S S) (bvshl S N)))
   (N Word (#x00000001 #x00000002 #x00000003 #x00000004))))
(declare-var x Word)
(constraint (= (nine x) (bvmul x #x00000009)))
(check-synth)
