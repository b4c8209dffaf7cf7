(set-logic QF_BV)
(declare-const |x| (_ BitVec 536870912))
(assert (distinct |x| |x|))
(check-sat)
