% Can there be a cow? The same question as in mad_cow.p, for a class that is as it should be.
%
% Satisfiable: there can be. `examples/model` shows a cow, with all that is said of it.
include('animals/animals.ax').
cnf(this_is_a_cow,negated_conjecture,( cow(this_cow) )).
cnf(it_eats_a_plant_1,negated_conjecture,( eats(this_cow,this_plant) )).
cnf(it_eats_a_plant_2,negated_conjecture,( plant(this_plant) )).
