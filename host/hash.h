/* FNV-1a, 64 bits. */
#ifndef EZ_HASH_H
#define EZ_HASH_H

#include "system.h"

word hash(const byte *bytes, word length);

/* The hash of bytes whose hash is known and of others behind them. */
word hash_on(word sum, const byte *bytes, word length);

#endif
