% The circuits of adder.p, with a fault: the ninth gate has the wire n4 where it should have n1.
%
% Satisfiable: there is an input for which they differ. `examples/model CERT on` shows it: a, b and c are on where they are in the list, and off
% where they are not, and so are the wires sum and carry of the one circuit, and sum2 and carry2 of the other.
include('circuits/gates.ax').
include('circuits/adder.ax').
cnf(nand_1,axiom,( nand_gate(a,b,n1) )).
cnf(nand_2,axiom,( nand_gate(a,n1,n2) )).
cnf(nand_3,axiom,( nand_gate(b,n1,n3) )).
cnf(nand_4,axiom,( nand_gate(n2,n3,n4) )).
cnf(nand_5,axiom,( nand_gate(n4,c,n5) )).
cnf(nand_6,axiom,( nand_gate(n4,n5,n6) )).
cnf(nand_7,axiom,( nand_gate(n5,c,n7) )).
cnf(nand_8,axiom,( nand_gate(n6,n7,sum2) )).
cnf(nand_9,axiom,( nand_gate(n4,n5,carry2) )).
