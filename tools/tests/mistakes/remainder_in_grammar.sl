(set-logic LIA)
(synth-fun f ((x Int)) Int ((Start Int) (C Int)) ((Start Int (C x (+ Start Start) (mod Start C))) (C Int ((Constant Int)))))
