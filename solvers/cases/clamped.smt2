(set-logic QF_BV)
(declare-const |x| (_ BitVec 4294967296))
(check-sat)
