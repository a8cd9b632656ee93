% Whoever has the key opens the door. Ann or Bob has it. Nobody opens the door.
cnf(ann_opens,axiom,( ~ has(ann,key) | opens(ann,door) )).
cnf(bob_opens,axiom,( ~ has(bob,key) | opens(bob,door) )).
cnf(one_has_it,hypothesis,( has(ann,key) | has(bob,key) )).
cnf(not_ann,negated_conjecture,( ~ opens(ann,door) )).
cnf(not_bob,negated_conjecture,( ~ opens(bob,door) )).
