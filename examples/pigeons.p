% Three pigeons in two holes, no two of them in one hole.
cnf(first_has_a_hole,axiom,( in(p1,h1) | in(p1,h2) )).
cnf(second_has_a_hole,axiom,( in(p2,h1) | in(p2,h2) )).
cnf(third_has_a_hole,axiom,( in(p3,h1) | in(p3,h2) )).
cnf(p1_p2_h1,axiom,( ~ in(p1,h1) | ~ in(p2,h1) )).
cnf(p1_p3_h1,axiom,( ~ in(p1,h1) | ~ in(p3,h1) )).
cnf(p2_p3_h1,axiom,( ~ in(p2,h1) | ~ in(p3,h1) )).
cnf(p1_p2_h2,axiom,( ~ in(p1,h2) | ~ in(p2,h2) )).
cnf(p1_p3_h2,axiom,( ~ in(p1,h2) | ~ in(p3,h2) )).
cnf(p2_p3_h2,axiom,( ~ in(p2,h2) | ~ in(p3,h2) )).
