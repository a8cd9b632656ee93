% Of two lights one is on, and both are off.
cnf(one_is_on,axiom,( on(hall) | on(stairs) )).
cnf(hall_is_off,axiom,( ~ on(hall) )).
cnf(stairs_are_off,negated_conjecture,( ~ on(stairs) )).
