; A certificate: both assertions as they are in canonical form, these alone kept, and `false` by unit propagation along them.
; => unsat
; => tacert 1 1 2
; => . bool p
; => rw 1 #1
; => . not #1
; => rw 2 #2
; => keep 3 4
; => . false
; => rup #3 1 2
; => keep 3
; => false 1
; => end
(set-logic QF_LIA)
(declare-const p Bool)
(assert p)
(assert (not p))
(check-sat-using sat)
(get-proof)
