% A lock that any number of clients take and give back. Is it ever held by two of them?
%
% This asks for one step: if all is well before it, is all well after it? All is well where no two clients hold the lock, and nobody holds it
% while it is free; at the beginning, when it is free and nobody holds it, all is well. So the clauses say that all is well before, that a client
% takes a step, and that all is not well after it.
%
% Unsatisfiable: there is no such step. The lock is never held by two, however many clients there are.
%
% A name may stand for any client, so `client`, `one` and `other` may be the same one, unless the clauses say that they are not.

% before the step all is well
cnf(one_holder,axiom,( ~ holds(X) | ~ holds(Y) | X = Y )).
cnf(free_is_not_held,axiom,( ~ free | ~ holds(X) )).

% the step: a client takes the lock, or gives it back
cnf(takes_or_gives,axiom,( takes(client) | gives(client) )).

% whoever takes it finds it free, and holds it then; the others hold what they held
cnf(takes_what_is_free,axiom,( ~ takes(client) | free )).
cnf(taken_is_held,axiom,( ~ takes(client) | holds_then(client) )).
cnf(taken_is_not_free,axiom,( ~ takes(client) | ~ free_then )).
cnf(taken_by_no_other,axiom,( ~ takes(client) | ~ holds_then(X) | holds(X) | X = client )).
cnf(taken_from_nobody,axiom,( ~ takes(client) | ~ holds(X) | holds_then(X) )).

% whoever gives it back has held it, and does not hold it then; the others hold what they held
cnf(gives_what_is_held,axiom,( ~ gives(client) | holds(client) )).
cnf(given_is_free,axiom,( ~ gives(client) | free_then )).
cnf(given_is_not_held,axiom,( ~ gives(client) | ~ holds_then(client) )).
cnf(given_to_nobody,axiom,( ~ gives(client) | ~ holds_then(X) | holds(X) )).
cnf(given_by_no_other,axiom,( ~ gives(client) | ~ holds(X) | holds_then(X) | X = client )).

% after the step all is not well: two hold the lock, or one holds it while it is free
cnf(is_broken,negated_conjecture,( two_hold | held_and_free )).
cnf(one_holds,negated_conjecture,( ~ two_hold | holds_then(one) )).
cnf(other_holds,negated_conjecture,( ~ two_hold | holds_then(other) )).
cnf(two_are_two,negated_conjecture,( ~ two_hold | one != other )).
cnf(is_free,negated_conjecture,( ~ held_and_free | free_then )).
cnf(is_held,negated_conjecture,( ~ held_and_free | holds_then(one) )).
