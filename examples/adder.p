% Two circuits that are to do the same: the adder of circuits/adder.ax, and one of nine nand gates.
%
% Unsatisfiable: there is no input for which they differ. adder_with_fault.p has a wrong wire.
include('circuits/gates.ax').
include('circuits/adder.ax').
cnf(nand_1,axiom,( nand_gate(a,b,n1) )).
cnf(nand_2,axiom,( nand_gate(a,n1,n2) )).
cnf(nand_3,axiom,( nand_gate(b,n1,n3) )).
cnf(nand_4,axiom,( nand_gate(n2,n3,n4) )).
cnf(nand_5,axiom,( nand_gate(n4,c,n5) )).
cnf(nand_6,axiom,( nand_gate(n4,n5,n6) )).
cnf(nand_7,axiom,( nand_gate(n5,c,n7) )).
cnf(nand_8,axiom,( nand_gate(n6,n7,sum2) )).
cnf(nand_9,axiom,( nand_gate(n1,n5,carry2) )).
