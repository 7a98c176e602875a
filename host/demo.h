/* A master and twelve displays that speak by parcels, on a cable that loses, repeats and delays them, to watch. */
#ifndef EZ_DEMO_H
#define EZ_DEMO_H

/* Words: --samples FOLDER, --seed N, --loss PERCENT, --rounds N, then a dataset and its updates; the samples where none is named. A status
   of the tool; REFUSED where a display holds another chart than the master had under its number. */
int demo(int count, char **words);

#endif
