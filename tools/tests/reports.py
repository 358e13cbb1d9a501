"""Three texts and a report of each, made by hand: of a classical context, a default theory and a program."""

CLASSICAL = ("""\
context a classical { p <-> q. p <-> ~q. }
context b classical {}
bridge x: b:y if a:r.
""", """\
mcs 1: 2 contexts, 1 rules, 1 variables
equilibrium 1: {a:r} applicable {x}
consistent
diagnosis 1: {} state {a:r} active {x}
end: 1 equilibria, 1 diagnoses, 0 explanations, need 2
proof
answer a {}
state {a:r}
yes
step 1 by 7 9 2 5 12
step by 6 8 1 16 5 12
done
answer b {x}
state {}
done
end of proof
""")

DEFAULT = ("""\
context birds default {
  bird.
  flies : nests / nests.
  bird : flies / flies.
}
context zoo program {}
bridge cage: zoo:cage if birds:nests.
""", """\
mcs 1: 2 contexts, 1 rules, 1 variables
equilibrium 1: {birds:nests} applicable {cage}
consistent
diagnosis 1: {} state {birds:nests} active {cage}
end: 1 equilibria, 1 diagnoses, 0 explanations, need 2
proof
answer birds {}
state {birds:nests}
set {}
applied 2
yes
step by 2 4 1
no {bird, flies}
set {1}
ungrounded {}
no {bird}
set {2}
applied 1
yes
step by 3 5 2
no {bird, flies, nests}
set {1, 2}
extension 2 1
yes
step by 2 4 1
yes
step by 3 5 2
no {bird, flies, nests}
no {bird, flies, nests}
yes
step by 4 6 2
done
answer zoo {cage}
state {}
model {cage}
step by 8 6 4 1 5
none
step by 9 7 6
done
end of proof
""")

PROGRAM = ("""\
context facts program { a. }
context guard program { :- p. }
bridge r1: guard:p if facts:a.
""", """\
mcs 1: 2 contexts, 1 rules, 1 variables
inconsistent
diagnosis 1: {-r1} state {facts:a} active {}
explanation 1: {-r1 by 1}
end: 0 equilibria, 1 diagnoses, 1 explanations, need 3
proof
answer facts {}
state {facts:a}
model {a}
step by 8 6 4 1 5
none
step by 8 6 4 1 5
done
answer guard {}
state {}
model {}
step by 12 10 9
none
step by 9 7 6
done
answer guard {r1}
none
step by 10 9 6 4 1 5
done
end of proof
""")

ALL = (CLASSICAL, DEFAULT, PROGRAM)
