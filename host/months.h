/* Updates of a chart in files: one, or several at once. */
#ifndef EZ_MONTHS_H
#define EZ_MONTHS_H

#include "system.h"

/* Applies updates one after the other, up to the first that is refused. Where any was applied, the chart as far as it came is put in the
   place of `to`, never in the place of what is read. A status of the tool: REFUSED where any was refused. */
int update_chart(const char *path, char **updates, word count, const char *to);

#endif
