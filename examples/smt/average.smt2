; The average of two words of 16 bits, rounded down, without a sum that overflows. Is there a counterexample?
(set-logic QF_BV)
(declare-const x (_ BitVec 16))
(declare-const y (_ BitVec 16))
(assert (not (= (bvadd (bvand x y) (bvlshr (bvxor x y) #x0001))
                ((_ extract 16 1) (bvadd (concat #b0 x) (concat #b0 y))))))
(check-sat)
