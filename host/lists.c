#include "lists.h"
#include "little.h"

int listable(word length) {
    return length >> 8 * LENGTH_BYTES == 0;
}

byte *put_in_list(byte *at, const byte *file, word length) {
    at = put_little_endian(at, length, LENGTH_BYTES);
    memcpy(at, file, length);
    return at + length;
}
