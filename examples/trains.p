% Who takes trains from the river does not come to the north: the clauses have a model in which that is so.
cnf(line_one,axiom,( train(north,market) )).
cnf(line_two,axiom,( train(market,river) )).
cnf(line_three,axiom,( train(market,hill) )).
cnf(ride,axiom,( ~ train(X,Y) | comes(X,Y) )).
cnf(change,axiom,( ~ comes(X,Y) | ~ train(Y,Z) | comes(X,Z) )).
cnf(not_back,negated_conjecture,( ~ comes(river,north) )).
