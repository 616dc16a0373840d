; The same, with neither name true.
; => unsat
(set-logic QF_LIA)
(declare-const p Bool)
(declare-const q Bool)
(assert (or p q))
(assert (not p))
(assert (not q))
(check-sat-using sat)
