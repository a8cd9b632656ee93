% All humans are mortal, and Socrates is human: so he is mortal.
cnf(mortal,axiom,( ~ human(X) | mortal(X) )).
cnf(socrates,axiom,( human(socrates) )).
cnf(not_mortal,negated_conjecture,( ~ mortal(socrates) )).
