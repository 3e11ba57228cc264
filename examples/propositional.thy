theory Propositional begin

axiom either: "P | Q"

lemma swapped: "Q | P"
  by (disjE "P" "Q" either x (disjI2 x) y (disjI1 y))

lemma turned: "(P --> Q) --> ~Q --> ~P"
  by (impI h (impI n (notI p (notE "Q" n (impE "P" h p)))))

lemma both: "P & Q --> Q & P"
proof
  assume h: "P & Q"
  show "Q & P" by (conjI (conjE2 "P" h) (conjE1 "Q" h))
qed

end
