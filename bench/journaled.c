/* The plain interpreter with a journal. */
#include "plain.h"
#define JOURNALING 1
#define plain_run plain_run_with_journal
#include "plain.c"
