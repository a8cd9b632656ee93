cnf(a,axiom,p | q). cnf(b,axiom,~p).
