/* plain_own_cost.c: the analysis of plain.c from document 01's start, which document 02's L5 keeps
 * as a choice. It is compiled by itself, as if it stood alone: were both entries in one file,
 * neither would have the reader of tables in line, and each would cost more for the other. */
#define OWN_COST
#include "plain.c"
