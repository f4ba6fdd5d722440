(set-logic LIA)
(set-feature :oracles true)
