/* The flat interpreter with a journal. */
#include "plain.h"
#define JOURNALING 1
#define flat_run flat_run_with_journal
#include "flat.c"
