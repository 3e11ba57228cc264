theory Lonely imports Other begin
axiom a: "P"
end
