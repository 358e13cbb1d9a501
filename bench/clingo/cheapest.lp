% The diagnoses of least cost, each rule that is removed or forced at its weight:
% clingo --opt-mode=optN --quiet=1 --project=show 0. A kept rule is never removed, a closed one never forced.
#defined kept/1.
#defined closed/1.
#defined weighs/2.
{ removed(R) } :- rule(R), not kept(R).
{ forced(R) }  :- rule(R), not closed(R).
#minimize { W,removed,R : removed(R), weighs(R,W); W,forced,R : forced(R), weighs(R,W) }.
#show removed/1.
#show forced/1.
