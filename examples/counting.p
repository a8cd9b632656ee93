% Zero is even, and even and odd numbers follow each other. The instances never end, so the answer is that the budget ran out.
cnf(zero,axiom,( even(zero) )).
cnf(odd_next,axiom,( ~ even(X) | odd(next(X)) )).
cnf(even_next,axiom,( ~ odd(X) | even(next(X)) )).
cnf(not_both,negated_conjecture,( ~ even(X) | ~ odd(X) )).
