#include "little.h"

word little_endian(const byte *at, word width) {
    word value = 0;
    for (word i = 0; i < width; i++) value |= (word)at[i] << 8 * i;
    return value;
}

byte *put_little_endian(byte *at, word value, word width) {
    for (word i = 0; i < width; i++) *at++ = (byte)(value >> 8 * i);
    return at;
}
