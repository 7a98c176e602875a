/* Parcels of the bridge cable, packed, and what a holding says. */
#ifndef EZ_PACKING_H
#define EZ_PACKING_H

#include "ezdurvash.h"
#include "system.h"

/* The whole length that a parcel states. */
word whole_length(const byte *parcel);

/* Whether a body of this length fits into a parcel, whose whole length has four bytes. */
int packable(word length);

/* Puts a parcel of kind 2 with this update file at a place; where the next one goes. */
byte *put_update_parcel(byte *at, const byte *file, word length);

/* The edition and the update number that a holding tells. */
word edition_told(const byte *holding);
word number_told(const byte *holding);

#endif
