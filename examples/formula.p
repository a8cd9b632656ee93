% A formula that is no clause: the program reads cnf statements and includes, and refuses this by the number of the statement.
cnf(raining,axiom,( raining )).
fof(umbrella,axiom,( raining => umbrella )).
