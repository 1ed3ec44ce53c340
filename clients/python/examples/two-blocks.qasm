// Two blocks of three qubits: CCZ in both, CNOTs from the first to the second, CCZ in both. The second block's red
// qubit starts in 1, and has a Z at the end.
OPENQASM 2.0;
include "qelib1.inc";
gate ccz a, b, c { h c; ccx a, b, c; h c; }

qreg r[2];
qreg b[2];
qreg g[2];
creg cr[2];
creg cb[2];
creg cg[2];

x r[1];
h r; h b; h g;

ccz r, b, g;
barrier r, b, g;
cx r[0], r[1]; cx b[0], b[1]; cx g[0], g[1];
barrier r, b, g;
ccz r, b, g;
z r[1];

h r; h b; h g;
measure r -> cr;
measure b -> cb;
measure g -> cg;
