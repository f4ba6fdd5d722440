(set-logic BV)
(set-info status sat)
