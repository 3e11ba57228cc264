theory FirstOrder begin

axiom rule: "ALL x. Man(x) --> Mortal(x)"
axiom man: "Man(socrates)"

lemma mortal: "Mortal(socrates)"
  by (impE "Man(socrates)" (allE "ALL x. Man(x) --> Mortal(x)" "socrates" rule) man)

lemma some: "(ALL x. P(x)) --> (EX y. P(y))"
  by (impI h (exI "c" (allE "ALL x. P(x)" "c" h)))

lemma swapped: "(EX x. P(x) & Q(x)) --> (EX x. Q(x))"
  by (impI h (exE "EX x. P(x) & Q(x)" z k h (exI "z" (conjE2 "P(z)" k))))

end
