(set-logic LIA)
(declare-weight w)
