% A function symbol: from the ground every stair is low, and of two that follow each other one is high. That can't be.
cnf(first,axiom,( low(ground) )).
cnf(next,axiom,( ~ low(X) | low(up(X)) )).
cnf(not_both,axiom,( ~ low(X) | ~ high(X) )).
cnf(one_of_two,negated_conjecture,( high(X) | high(up(X)) )).
