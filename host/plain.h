/* What the proved functions are measured against: the least that any program must do with the same bytes. */
#ifndef EZ_PLAIN_H
#define EZ_PLAIN_H

#include "system.h"

/* Splits a dataset that is known to be good into records and their fields, by leader and directory. The answer, a sum over tags and
   bounds, only says that everything was looked at. */
word plain_walk(const byte *bytes, word length);

/* Copies the bytes. */
void plain_copy(byte *to, const byte *from, word length);

#endif
