% Classical contexts and default theories, whose formulas are given part by part.
%
% What follows from a theory is found by saturation: `all(T)` is a world whose atoms are true or false, and each way to
% make them so has to be spoilt, by a formula in force that is false or by all that follows being true. What does not
% follow has a world `no(T,F)` of its own that shows it.

#defined theory/1.      #defined atom/2.      #defined top/2.        #defined bottom/2.    #defined negation/3.
#defined conjunction/4. #defined disjunction/4. #defined implication/4. #defined equivalence/4.
#defined says/2.        #defined told/3.      #defined views/3.      #defined asks/2.
#defined default/2.     #defined needs/2.     #defined against/2.    #defined concludes/2.

% What follows: by the view where a rule reads it, by a guess where only defaults ask.
follows(T,F) :- views(V,T,F), believed(V).
viewed(T,F)  :- views(V,T,F).
{ follows(T,F) } :- asks(T,F), not viewed(T,F).

% A default generates where its prerequisite follows and the denial of no justification does.
generates(D) :- default(T,D); follows(T,P) : needs(D,P); not follows(T,N) : against(D,N).

base(T,F)  :- says(T,F).
base(T,F)  :- told(R,T,F), applied(R).
force(T,F) :- base(T,F).
force(T,F) :- default(T,D), generates(D), concludes(D,F).

% Worlds, and what is true and false in them.
true(W,F)  :- world(W,T), top(T,F).
false(W,F) :- world(W,T), bottom(T,F).
true(W,F)  :- world(W,T), negation(T,F,X), false(W,X).
false(W,F) :- world(W,T), negation(T,F,X), true(W,X).
true(W,F)  :- world(W,T), conjunction(T,F,X,Y), true(W,X), true(W,Y).
false(W,F) :- world(W,T), conjunction(T,F,X,Y), false(W,X).
false(W,F) :- world(W,T), conjunction(T,F,X,Y), false(W,Y).
true(W,F)  :- world(W,T), disjunction(T,F,X,Y), true(W,X).
true(W,F)  :- world(W,T), disjunction(T,F,X,Y), true(W,Y).
false(W,F) :- world(W,T), disjunction(T,F,X,Y), false(W,X), false(W,Y).
true(W,F)  :- world(W,T), implication(T,F,X,Y), false(W,X).
true(W,F)  :- world(W,T), implication(T,F,X,Y), true(W,Y).
false(W,F) :- world(W,T), implication(T,F,X,Y), true(W,X), false(W,Y).
true(W,F)  :- world(W,T), equivalence(T,F,X,Y), true(W,X), true(W,Y).
true(W,F)  :- world(W,T), equivalence(T,F,X,Y), false(W,X), false(W,Y).
false(W,F) :- world(W,T), equivalence(T,F,X,Y), true(W,X), false(W,Y).
false(W,F) :- world(W,T), equivalence(T,F,X,Y), false(W,X), true(W,Y).

% What does not follow is shown by a world in which all that is in force is true.
world(no(T,F),T) :- asks(T,F), not follows(T,F).
1 { true(no(T,F),A); false(no(T,F),A) } 1 :- world(no(T,F),T), atom(T,A).
:- world(no(T,F),T), true(no(T,F),F).
:- world(no(T,F),T), force(T,G), not true(no(T,F),G).

% What follows does so in every world.
world(all(T),T) :- asks(T,_).
every(all(T))   :- asks(T,_).
kept(T,F)       :- asks(T,F), not follows(T,F).
kept(T,F)       :- asks(T,F), true(all(T),F).
spoilt(all(T))  :- asks(T,_); kept(T,F) : asks(T,F).
spoilt(all(T))  :- force(T,G), false(all(T),G), every(all(T)).

% Defaults are grounded: each has a stage, and its prerequisite follows from those of earlier stages.
1 { stage(D,1..N) } 1 :- default(T,D), generates(D), needs(D,_), N = #count { E : default(T,E) }.
stage(D,0)             :- generates(D), not needs(D,_).
earlier(D,E)           :- default(T,D), default(T,E), stage(D,I), stage(E,J), J < I.
world(early(D),T)      :- default(T,D), generates(D), needs(D,_).
every(early(D))        :- world(early(D),_).
spoilt(early(D))       :- world(early(D),T), needs(D,P), true(early(D),P).
spoilt(early(D))       :- world(early(D),T), base(T,G), false(early(D),G).
spoilt(early(D))       :- world(early(D),T), earlier(D,E), concludes(E,C), false(early(D),C).

true(W,A) | false(W,A) :- every(W), world(W,T), atom(T,A).
true(W,A)  :- spoilt(W), world(W,T), atom(T,A).
false(W,A) :- spoilt(W), world(W,T), atom(T,A).
:- every(W), not spoilt(W).
