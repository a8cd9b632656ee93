% A farmer takes a wolf, a goat and a cabbage over a river, one at a time. While he is away the wolf eats the goat and the goat eats the cabbage.
%
% at(F,W,G,C) says that farmer, wolf, goat and cabbage can come to be on these banks, all being well. The clauses say that they never come to be all
% on the right bank.
%
% Unsatisfiable: they do. `examples/proof` shows how: its instances are the plan. If there were no plan, the answer would be Satisfiable.

cnf(left_to_right,axiom,( across(left,right) )).
cnf(right_to_left,axiom,( across(right,left) )).
cnf(begins,axiom,( at(left,left,left,left) )).
% all is well where the goat is with the farmer, or alone on its bank
cnf(well_with_the_farmer,axiom,( well(X,W,X,C) )).
cnf(well_alone,axiom,( ~ across(X,Y) | well(X,X,Y,X) )).
% the farmer goes alone, or with one of the three that is on his bank
cnf(goes_alone,axiom,( ~ at(X,W,G,C) | ~ across(X,Y) | ~ well(Y,W,G,C) | at(Y,W,G,C) )).
cnf(takes_the_wolf,axiom,( ~ at(X,X,G,C) | ~ across(X,Y) | ~ well(Y,Y,G,C) | at(Y,Y,G,C) )).
cnf(takes_the_goat,axiom,( ~ at(X,W,X,C) | ~ across(X,Y) | ~ well(Y,W,Y,C) | at(Y,W,Y,C) )).
cnf(takes_the_cabbage,axiom,( ~ at(X,W,G,X) | ~ across(X,Y) | ~ well(Y,W,G,Y) | at(Y,W,G,Y) )).

cnf(never_all_over,negated_conjecture,( ~ at(right,right,right,right) )).
