% Can four countries be coloured with three colours, so that neighbours differ? Satisfiable: they can, and `examples/model`
% shows how.
include('maps/borders.ax').
cnf(north_has_one,axiom,( red(north) | blue(north) | green(north) )).
cnf(south_has_one,axiom,( red(south) | blue(south) | green(south) )).
cnf(east_has_one,axiom,( red(east) | blue(east) | green(east) )).
cnf(west_has_one,axiom,( red(west) | blue(west) | green(west) )).
