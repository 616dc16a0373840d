; All four clauses over two names: one of them is false, whatever the names are.
; => unsat
(set-logic QF_LIA)
(declare-const p Bool)
(declare-const q Bool)
(assert (or p q))
(assert (or p (not q)))
(assert (or (not p) q))
(assert (or (not p) (not q)))
(check-sat-using sat)
