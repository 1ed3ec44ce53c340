// One CCZ on three qubits.
OPENQASM 3.0;
include "stdgates.inc";
gate ccz a, b, c { h c; ccx a, b, c; h c; }

qubit[1] r;
qubit[1] b;
qubit[1] g;
bit[3] c;

h r;
h b;
h g;
ccz r[0], b[0], g[0];
h r;
h b;
h g;

c[0] = measure r[0];
c[1] = measure b[0];
c[2] = measure g[0];
