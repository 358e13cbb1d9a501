% The minimal explanations, which are the minimal hitting sets of the minimal diagnoses, given as has(DIAGNOSIS, MARK):
% clingo --heuristic=Domain --enum-mode=domRec 0.
#defined has/2.
{ hit(M) } :- has(_,M).
:- has(D,_), not hit(M) : has(D,M).
#heuristic hit(M) : has(_,M). [1,false]
#show hit/1.
