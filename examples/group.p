% A group with an element that is not the neutral one: `fmodel 1` finds no tables, and `fmodel 2` those of the group with two elements.
cnf(neutral,axiom,times(e,X)=X).
cnf(inverse,axiom,times(inv(X),X)=e).
cnf(associative,axiom,times(times(X,Y),Z)=times(X,times(Y,Z))).
cnf(another,axiom,a!=e).
