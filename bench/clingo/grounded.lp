% The grounded equilibria of a system of normal programs, told by the beliefs that rules read: the answer sets of all the
% programs with the bridge rules as rules among them. clingo --project=show 0.
#defined variable/1.    #defined reads/2.     #defined denies/2.
#defined tells/3.       #defined sees/3.      #defined holds/2.     #defined rule/1.
believed(V) :- sees(V,C,A), holds(C,A).
holds(C,A)  :- tells(R,C,A); believed(V) : reads(R,V); not believed(V) : denies(R,V).
#show believed/1.
