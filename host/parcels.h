/* The words for those who work on the bridge cable: its parcels in files. Each answers a status of the tool and puts a file in the place of
   `to`, never in the place of what is read. */
#ifndef EZ_PARCELS_H
#define EZ_PARCELS_H

#include "system.h"

/* The holding of a chart. */
int tell_holding(const char *path, const char *to);

/* Updates joined to a shelf. */
int join_shelf(char **updates, word count, const char *to);

/* The parcel of a shelf that a holding is answered with; nothing for silence. */
int reply_parcel(const char *holding, const char *shelf, const char *to);

/* The chart after a parcel. */
int take_parcel(const char *path, const char *parcel, const char *to);

#endif
