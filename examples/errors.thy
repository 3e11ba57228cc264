theory Errors begin

axiom a: "P -->"
axiom b: "P"
axiom b: "Q"
load "facts"

lemma c: "P" by none
lemma d: "P --> Q" by (impI h h)
lemma e: "P" by (conjI b b)
lemma f: "P" by (
lemma g: "P(x) --> (ALL y. P(y))" by (impI k (allI x k))

lemma h: "P --> P"
proof
  qed
  assume h "P"
  assume h: "P"
  show "Q"
  axiom z: "P"
  show "P" by h
qed

end
