; A model can be shown only right after a check that answered sat: the first error ends the script, with status 1.
; => unsat
; => (error "line 9 column 1: no answer to show")
; status 1
(set-logic QF_LIA)
(declare-const p Bool)
(assert (and p (not p)))
(check-sat-using (then simplify sat))
(get-model)
(check-sat-using sat)
