% The clauses of library.fof, as `examples/from_fof library.fof` gives them, with what they say. What is so for all rooms has a variable; what there
% is has a name of its own, esk1_0 or esk2_0; and the conjecture is negated, so there is a room that no person opens.
%
% Unsatisfiable: so the conjecture of library.fof follows from its axioms.

% esk1_0 is the librarian who has all keys
cnf(i_0_2,plain,( librarian(esk1_0) )).
cnf(i_0_1,plain,( opens(esk1_0,X1) | ~ room(X1) )).
% librarians are people
cnf(i_0_3,plain,( person(X1) | ~ librarian(X1) )).
% esk2_0 is the room that no person opens
cnf(i_0_5,negated_conjecture,( room(esk2_0) )).
cnf(i_0_4,negated_conjecture,( ~ person(X1) | ~ opens(X1,esk2_0) )).
