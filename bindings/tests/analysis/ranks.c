/* What calls over ranks reckon with, for WP: bindings/mpi/joins.h and shares.h, which know nothing of MPI. */
#include "../../mpi/joins.h"
