% Two caches for one word of memory, each of which is invalid, shared or modified. Can both have it modified, or one modified and one shared?
%
% state(A,B) says that the first cache can come to be A while the second is B. The clauses say where it begins and which steps there are, and that
% the bad states are not reached.
%
% Satisfiable: they are not. `examples/model CERT state` shows a set of states with the first one in it, which no step leaves and which has no bad
% one. cache_with_bug.p has the answer for a protocol that goes wrong.

cnf(begins,axiom,( state(invalid,invalid) )).
% what one cache can do the other can too, so the steps below are those of the first
cnf(alike,axiom,( ~ state(X,Y) | state(Y,X) )).
% it reads: then it is shared, and a modified word of the other cache is written back and shared
cnf(reads_from_memory,axiom,( ~ state(invalid,invalid) | state(shared,invalid) )).
cnf(reads_what_is_shared,axiom,( ~ state(invalid,shared) | state(shared,shared) )).
cnf(reads_what_is_modified,axiom,( ~ state(invalid,modified) | state(shared,shared) )).
% it writes: then it is modified, and the other cache is invalid
cnf(writes,axiom,( ~ state(X,Y) | state(modified,invalid) )).
% it drops the word, or writes it back
cnf(drops,axiom,( ~ state(X,Y) | state(invalid,Y) )).

cnf(not_both_modified,negated_conjecture,( ~ state(modified,modified) )).
cnf(none_modified_while_shared,negated_conjecture,( ~ state(modified,shared) )).
