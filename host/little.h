/* Numbers as bytes, the lowest first. */
#ifndef EZ_LITTLE_H
#define EZ_LITTLE_H

#include "system.h"

/* The number that so many bytes say. */
word little_endian(const byte *at, word width);

/* Puts a number into so many bytes; where the next byte goes. */
byte *put_little_endian(byte *at, word value, word width);

#endif
