// The circuit of source document 001 on 16 blocks of three qubits, 48 in all (examples/README.md, section hypercube).
// A block is a position of each colour. The blocks are the corners of a cube of four dimensions; controls are those
// whose number has an even number of ones in binary. `convert` writes the lines of examples/hypercube.in.
OPENQASM 2.0;
include "qelib1.inc";

gate ccz a, b, c { h c; ccx a, b, c; h c; }

qreg r[16];
qreg b[16];
qreg g[16];
creg red[16];
creg blue[16];
creg green[16];

h r;
h b;
h g;

// Stage 1
ccz r, b, g;
cz b, g;
z r;

// CNOTs along direction 1, between blocks whose numbers differ by 1
cx r[0], r[1]; cx b[0], b[1]; cx g[0], g[1];
cx r[3], r[2]; cx b[3], b[2]; cx g[3], g[2];
cx r[5], r[4]; cx b[5], b[4]; cx g[5], g[4];
cx r[6], r[7]; cx b[6], b[7]; cx g[6], g[7];
cx r[9], r[8]; cx b[9], b[8]; cx g[9], g[8];
cx r[10], r[11]; cx b[10], b[11]; cx g[10], g[11];
cx r[12], r[13]; cx b[12], b[13]; cx g[12], g[13];
cx r[15], r[14]; cx b[15], b[14]; cx g[15], g[14];

// Stage 2
ccz r, b, g;
cz r, g;
z b;

// CNOTs along direction 2, between blocks whose numbers differ by 2
cx r[0], r[2]; cx b[0], b[2]; cx g[0], g[2];
cx r[3], r[1]; cx b[3], b[1]; cx g[3], g[1];
cx r[5], r[7]; cx b[5], b[7]; cx g[5], g[7];
cx r[6], r[4]; cx b[6], b[4]; cx g[6], g[4];
cx r[9], r[11]; cx b[9], b[11]; cx g[9], g[11];
cx r[10], r[8]; cx b[10], b[8]; cx g[10], g[8];
cx r[12], r[14]; cx b[12], b[14]; cx g[12], g[14];
cx r[15], r[13]; cx b[15], b[13]; cx g[15], g[13];

// Stage 3
ccz r, b, g;
cz r, b;
z g;

// CNOTs along direction 3, between blocks whose numbers differ by 4
cx r[0], r[4]; cx b[0], b[4]; cx g[0], g[4];
cx r[3], r[7]; cx b[3], b[7]; cx g[3], g[7];
cx r[5], r[1]; cx b[5], b[1]; cx g[5], g[1];
cx r[6], r[2]; cx b[6], b[2]; cx g[6], g[2];
cx r[9], r[13]; cx b[9], b[13]; cx g[9], g[13];
cx r[10], r[14]; cx b[10], b[14]; cx g[10], g[14];
cx r[12], r[8]; cx b[12], b[8]; cx g[12], g[8];
cx r[15], r[11]; cx b[15], b[11]; cx g[15], g[11];

// Stage 4
ccz r, b, g;
cz b, g;
z r;

// CNOTs along direction 4, between blocks whose numbers differ by 8
cx r[0], r[8]; cx b[0], b[8]; cx g[0], g[8];
cx r[3], r[11]; cx b[3], b[11]; cx g[3], g[11];
cx r[5], r[13]; cx b[5], b[13]; cx g[5], g[13];
cx r[6], r[14]; cx b[6], b[14]; cx g[6], g[14];
cx r[9], r[1]; cx b[9], b[1]; cx g[9], g[1];
cx r[10], r[2]; cx b[10], b[2]; cx g[10], g[2];
cx r[12], r[4]; cx b[12], b[4]; cx g[12], g[4];
cx r[15], r[7]; cx b[15], b[7]; cx g[15], g[7];

// Stage 5
ccz r, b, g;
cz r, g;
z b;

h r;
h b;
h g;

measure r -> red;
measure b -> blue;
measure g -> green;
