% Of two lights one is on, and it is not the one in the hall.
cnf(one_is_on,axiom,( on(hall) | on(stairs) )).
cnf(hall_is_off,axiom,( ~ on(hall) )).
