; The lowest bit of a word of 32 bits that is set, alone.
(set-logic BV)                                     ; bit vectors
(define-sort Word () (_ BitVec 32))                ; a shorter name for a sort
(synth-fun lowest ((x Word)) Word                  ; the function to be found
  ((S Word))                                       ;   its nonterminals: here one
  ((S Word (x (bvneg S) (bvnot S) (bvand S S)))))  ;   its rules: what S may be
(declare-var x Word)                               ; for every x
(constraint (= (bvand x (lowest x)) (lowest x)))   ;   it has no bits but those of x,
(constraint (= (bvand x (bvsub (lowest x) #x00000001)) #x00000000)) ; no bit of x is below it,
(constraint (= (= x #x00000000) (= (lowest x) #x00000000)))         ; and it is 0 where x is
(check-synth)                                      ; the question
