/* Update files joined to a list, each preceded by its length, as ezdurvash_month takes them. */
#ifndef EZ_LISTS_H
#define EZ_LISTS_H

#include "system.h"

/* How many bytes a length takes. */
enum { LENGTH_BYTES = 4 };

/* Whether a length can be told in so many bytes. */
int listable(word length);

/* Puts the length of a file at a place and the file behind it; where the next one goes. */
byte *put_in_list(byte *at, const byte *file, word length);

#endif
