% The two caches of cache.p with a bug: a cache that has the word shared writes it without making the other one invalid.
%
% Unsatisfiable: a bad state is reached. `examples/proof` shows how: its instances are the steps that lead there.

cnf(begins,axiom,( state(invalid,invalid) )).
% what one cache can do the other can too, so the steps below are those of the first
cnf(alike,axiom,( ~ state(X,Y) | state(Y,X) )).
% it reads: then it is shared, and a modified word of the other cache is written back and shared
cnf(reads_from_memory,axiom,( ~ state(invalid,invalid) | state(shared,invalid) )).
cnf(reads_what_is_shared,axiom,( ~ state(invalid,shared) | state(shared,shared) )).
cnf(reads_what_is_modified,axiom,( ~ state(invalid,modified) | state(shared,shared) )).
% it writes: then it is modified, and the other cache is invalid, but for the bug
cnf(writes_what_is_invalid,axiom,( ~ state(invalid,Y) | state(modified,invalid) )).
cnf(writes_what_is_modified,axiom,( ~ state(modified,Y) | state(modified,invalid) )).
cnf(writes_what_is_shared,axiom,( ~ state(shared,Y) | state(modified,Y) )).
% it drops the word, or writes it back
cnf(drops,axiom,( ~ state(X,Y) | state(invalid,Y) )).

cnf(not_both_modified,negated_conjecture,( ~ state(modified,modified) )).
cnf(none_modified_while_shared,negated_conjecture,( ~ state(modified,shared) )).
