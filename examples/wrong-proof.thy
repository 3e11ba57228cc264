theory Wrong begin
lemma right: "P --> P" by (impI h h)
lemma wrong: "P --> Q" by (impI h h)
lemma later: "P --> P" by right
end
