% Can there be a mad cow? In the ontology of animals/animals.ax a mad cow is a cow that eats the brain of a sheep.
%
% To ask whether a class can have a member, one is given a name, and so is what it must have: this mad cow, with the brain that it eats and the sheep
% that the brain is of. Such names are new, and may stand for any thing.
%
% Unsatisfiable: there is none, so the class is inconsistent. `examples/core_names` says which clauses are to blame, and none of them can be spared.
include('animals/animals.ax').
cnf(this_is_a_mad_cow,negated_conjecture,( mad_cow(this_cow) )).
cnf(it_eats_a_brain,negated_conjecture,( eats(this_cow,this_brain) )).
cnf(the_brain_is_of_a_sheep_1,negated_conjecture,( part_of(this_brain,this_sheep) )).
cnf(the_brain_is_of_a_sheep_2,negated_conjecture,( sheep(this_sheep) )).
