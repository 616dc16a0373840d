; Values of asked terms, as the script spells them.
; => sat
; => ((q true) ((and p q) false) ((ite p 1 (- 2)) (- 2)))
(set-logic QF_LIA)
(declare-const p Bool)
(declare-const q Bool)
(assert (or p q))
(assert (! (not p) :named off))
(check-sat-using sat)
(get-value (q (and p q) (ite p 1 (- 2))))
