(declare-const p Bool)(assert p)(assert (not p))(check-sat-using (then simplify sat))(get-proof)
