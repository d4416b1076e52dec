/* The plain interpreter without counting. */
#define COUNTING 0
#define plain_run uncounted_run
#include "plain.c"
