% The minimal diagnoses, by a heuristic that first tries not to change anything:
% clingo --heuristic=Domain --enum-mode=domRec 0. A kept rule is never removed, a closed one never forced.
#defined kept/1.
#defined closed/1.
{ removed(R) } :- rule(R), not kept(R).
{ forced(R) }  :- rule(R), not closed(R).
#heuristic removed(R) : rule(R). [1,false]
#heuristic forced(R) : rule(R). [1,false]
#show removed/1.
#show forced/1.
