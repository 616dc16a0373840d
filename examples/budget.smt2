; `try-for` bounds the lemmas of a search: the first check needs none, the second one.
; => unsat
; => unknown
; => (:reason-unknown (failed (spent 1)))
; => unsat
(set-logic QF_LIA)
(declare-const p Bool)
(declare-const q Bool)
(push 1)
(assert p)
(assert (or (not p) q))
(assert (not q))
(check-sat-using (try-for sat 0))
(pop 1)
(assert (or p q))
(assert (or p (not q)))
(assert (or (not p) q))
(assert (or (not p) (not q)))
(check-sat-using (try-for sat 0))
(get-info :reason-unknown)
(check-sat-using (or-else (try-for sat 0) sat))
