% Who killed Aunt Agatha? With equality, and an include.
include('mansion/people.ax').
cnf(killer_lives,hypothesis,( lives(killer) )).
cnf(killer_killed,hypothesis,( killed(killer,agatha) )).
cnf(killer_hates,axiom,( ~ killed(X,Y) | hates(X,Y) )).
cnf(not_richer,axiom,( ~ killed(X,Y) | ~ richer(X,Y) )).
cnf(charles_hates,axiom,( ~ hates(agatha,X) | ~ hates(charles,X) )).
cnf(agatha_hates_agatha,axiom,( hates(agatha,agatha) )).
cnf(agatha_hates_charles,axiom,( hates(agatha,charles) )).
cnf(butler_hates_poor,axiom,( ~ lives(X) | richer(X,agatha) | hates(butler,X) )).
cnf(butler_copies,axiom,( ~ hates(agatha,X) | hates(butler,X) )).
cnf(none_hates_all,axiom,( ~ hates(X,agatha) | ~ hates(X,butler) | ~ hates(X,charles) )).
cnf(not_herself,negated_conjecture,( ~ killed(agatha,agatha) )).
