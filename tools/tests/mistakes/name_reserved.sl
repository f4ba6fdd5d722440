(set-logic LIA)
(declare-var and Bool)
