#include "packing.h"
#include "little.h"

/* How many bytes a parcel's whole length takes; its kind, and a holding's two numbers, take half as many. */
enum { WHOLE = 4, HALF = 2 };

word whole_length(const byte *parcel) {
    return little_endian(parcel, WHOLE);
}

int packable(word length) {
    return (length + EZDURVASH_PARCEL_HEAD) >> 8 * WHOLE == 0;
}

byte *put_update_parcel(byte *at, const byte *file, word length) {
    at = put_little_endian(at, EZDURVASH_PARCEL_HEAD + length, WHOLE);
    at = put_little_endian(at, EZDURVASH_UPDATE_FILE, HALF);
    memcpy(at, file, length);
    return at + length;
}

word edition_told(const byte *holding) {
    return little_endian(holding + EZDURVASH_EDITION_TOLD, HALF);
}

word number_told(const byte *holding) {
    return little_endian(holding + EZDURVASH_NUMBER_TOLD, HALF);
}
