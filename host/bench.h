/* How long the proved functions take, against plain C over the same bytes. */
#ifndef EZ_BENCH_H
#define EZ_BENCH_H

#include "system.h"

/* Measure reading, writing and updating; the largest dataset has so many MiB. A status of the tool. */
int bench_read(word mebibytes);
int bench_write(word mebibytes);
int bench_update(word mebibytes);

/* Measures a month of updates at once against a call for each of them, on a dataset of so many MiB. A status of the tool. */
int bench_month(word mebibytes);

/* Measures how long a master looks for an answer on a shelf of so many MiB. A status of the tool. */
int bench_cable(word mebibytes);

/* Measures shapes that try to be slow, those whose names have these words, over a quarter, a half and all of so many bytes, at least
   262,144. A status of the tool; TROUBLE where one is answered otherwise than meant, or none has such a name. */
int bench_worst(word bytes, const char *words);

#endif
