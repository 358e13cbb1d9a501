% Multi-context systems in answer-set programming: a guess of what is believed, the bridge rules, and programs.
%
% `translate` writes the facts of a text, and the rules of its programs with holds(CONTEXT, ATOM).

#defined removed/1.     #defined forced/1.
#defined variable/1.    #defined reads/2.     #defined denies/2.
#defined tells/3.       #defined sees/3.      #defined holds/2.     #defined rule/1.

% A view: which of the beliefs that rules read are held.
{ believed(V) } :- variable(V).

% A rule is applicable where its reads are as it wants them. A change removes some rules and forces others.
applicable(R) :- rule(R); believed(V) : reads(R,V); not believed(V) : denies(R,V).
applied(R)    :- applicable(R), not removed(R).
applied(R)    :- forced(R).

% A program takes the heads of the rules that apply as facts, and has the beliefs of the view in an answer set.
holds(C,A) :- applied(R), tells(R,C,A).
:- believed(V), sees(V,C,A), not holds(C,A).
:- sees(V,C,A), holds(C,A), not believed(V).
