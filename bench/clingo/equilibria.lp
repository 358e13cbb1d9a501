% The equilibria, told by the beliefs that rules read: clingo --project=show 0.
#show believed/1.
