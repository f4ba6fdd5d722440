; What is paid back, and what is due.
; leaves: 4
(set-logic LIA)
(synth-fun back ((due Int) (paid Int)) Int)
(synth-fun open ((due Int) (paid Int)) Int)
(declare-var due Int)
(declare-var paid Int)
(assume (and (>= due 0) (>= paid 0)))
(constraint (>= (back due paid) 0))
(constraint (>= (open due paid) 0))
(constraint (= (- (back due paid) (open due paid)) (- paid due)))
(constraint (or (= (back due paid) 0) (= (open due paid) 0)))
(check-synth)
