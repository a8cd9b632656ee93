% The lock of lock.p with a bug: a client gives it back without having held it.
%
% Satisfiable: there is a step after which all is not well. `examples/model` shows it: which atoms are true before the step (holds, free), what the
% step is (takes, gives) and what is true after it (holds_then, free_then); `a = b` says that two names stand for one client. What the model shows
% is a step from a state in which all is well; whether that state is ever reached is another question, which cache.p asks.
%
% A name may stand for any client, so `client`, `one` and `other` may be the same one, unless the clauses say that they are not.

% before the step all is well
cnf(one_holder,axiom,( ~ holds(X) | ~ holds(Y) | X = Y )).
cnf(free_is_not_held,axiom,( ~ free | ~ holds(X) )).

% the step: a client takes the lock, or gives it back
cnf(takes_or_gives,axiom,( takes(client) | gives(client) )).

% whoever takes it finds it free, and holds it then; the others hold what they held
cnf(takes_what_is_free,axiom,( ~ takes(client) | free )).
cnf(taken_is_held,axiom,( ~ takes(client) | holds_then(client) )).
cnf(taken_is_not_free,axiom,( ~ takes(client) | ~ free_then )).
cnf(taken_by_no_other,axiom,( ~ takes(client) | ~ holds_then(X) | holds(X) | X = client )).
cnf(taken_from_nobody,axiom,( ~ takes(client) | ~ holds(X) | holds_then(X) )).

% whoever gives it back does not hold it then; the others hold what they held
% the bug: the clause gives_what_is_held of lock.p, ~ gives(client) | holds(client), is not here
cnf(given_is_free,axiom,( ~ gives(client) | free_then )).
cnf(given_is_not_held,axiom,( ~ gives(client) | ~ holds_then(client) )).
cnf(given_to_nobody,axiom,( ~ gives(client) | ~ holds_then(X) | holds(X) )).
cnf(given_by_no_other,axiom,( ~ gives(client) | ~ holds(X) | holds_then(X) | X = client )).

% after the step all is not well: two hold the lock, or one holds it while it is free
cnf(is_broken,negated_conjecture,( two_hold | held_and_free )).
cnf(one_holds,negated_conjecture,( ~ two_hold | holds_then(one) )).
cnf(other_holds,negated_conjecture,( ~ two_hold | holds_then(other) )).
cnf(two_are_two,negated_conjecture,( ~ two_hold | one != other )).
cnf(is_free,negated_conjecture,( ~ held_and_free | free_then )).
cnf(is_held,negated_conjecture,( ~ held_and_free | holds_then(one) )).
