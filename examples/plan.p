% A robot is in the hall, the door to the roof is locked, and the key is in the lab. Can it be on the roof after three steps?
%
% Satisfiable: it can, and the model is the plan: `examples/model CERT go take` shows it, go(lab,t0) being that it goes to the lab at the first time.
% plan_in_two_steps.p asks for two steps.
cnf(begins_in_the_hall,axiom,( in_hall(t0) )).
cnf(begins_without_the_key,axiom,( ~ has_key(t0) )).
cnf(ends_on_the_roof,negated_conjecture,( on_roof(t3) )).
% it is in one place at a time
cnf(one_place_0a,axiom,( ~ in_hall(t0) | ~ in_lab(t0) )).
cnf(one_place_0b,axiom,( ~ in_hall(t0) | ~ on_roof(t0) )).
cnf(one_place_1,axiom,( ~ in_hall(t1) | ~ in_lab(t1) )).
cnf(one_place_2,axiom,( ~ in_hall(t2) | ~ in_lab(t2) )).
% it is where it was, or it went there: to the lab from the hall, to the roof from the lab and with the key
cnf(roof_0,axiom,( ~ on_roof(t1) | on_roof(t0) | go(roof,t0) )).
cnf(roof_1,axiom,( ~ on_roof(t2) | on_roof(t1) | go(roof,t1) )).
cnf(roof_2,axiom,( ~ on_roof(t3) | on_roof(t2) | go(roof,t2) )).
cnf(lab_0,axiom,( ~ in_lab(t1) | in_lab(t0) | go(lab,t0) )).
cnf(lab_1,axiom,( ~ in_lab(t2) | in_lab(t1) | go(lab,t1) )).
cnf(go_roof_0,axiom,( ~ go(roof,t0) | in_lab(t0) )).
cnf(go_roof_1,axiom,( ~ go(roof,t1) | in_lab(t1) )).
cnf(go_roof_2,axiom,( ~ go(roof,t2) | in_lab(t2) )).
cnf(with_key_0,axiom,( ~ go(roof,t0) | has_key(t0) )).
cnf(with_key_1,axiom,( ~ go(roof,t1) | has_key(t1) )).
cnf(with_key_2,axiom,( ~ go(roof,t2) | has_key(t2) )).
cnf(go_lab_0,axiom,( ~ go(lab,t0) | in_hall(t0) )).
cnf(go_lab_1,axiom,( ~ go(lab,t1) | in_hall(t1) )).
% it has the key where it had it, or took it, in the lab
cnf(key_1,axiom,( ~ has_key(t1) | has_key(t0) | take(key,t0) )).
cnf(key_2,axiom,( ~ has_key(t2) | has_key(t1) | take(key,t1) )).
cnf(take_0,axiom,( ~ take(key,t0) | in_lab(t0) )).
cnf(take_1,axiom,( ~ take(key,t1) | in_lab(t1) )).
% one thing at a time
cnf(one_deed_0a,axiom,( ~ go(lab,t0) | ~ take(key,t0) )).
cnf(one_deed_0b,axiom,( ~ go(lab,t0) | ~ go(roof,t0) )).
cnf(one_deed_1a,axiom,( ~ go(lab,t1) | ~ take(key,t1) )).
cnf(one_deed_1b,axiom,( ~ go(roof,t1) | ~ take(key,t1) )).
