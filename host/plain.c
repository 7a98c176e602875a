#include "plain.h"

static word decimal(const byte *at, word width) {
    word value = 0;
    for (word i = 0; i < width; i++) value = value * 10 + (word)(at[i] - '0');
    return value;
}

/* Splits one record into its fields. */
static word plain_fields(const byte *record, word base) {
    word a = record[20] - '0', b = record[21] - '0', sum = 0;
    for (word at = 24; at + 4 + a + b < base; at += 4 + a + b) {
        word size = decimal(record + at + 4, a), start = decimal(record + at + 4 + a, b);
        sum += record[at] ^ size ^ record[base + start];
    }
    return sum;
}

word plain_walk(const byte *bytes, word length) {
    word at = 0, sum = 0;
    while (at + 24 <= length) {
        word size = decimal(bytes + at, 5), base = decimal(bytes + at + 12, 5);
        if (size < 25 || size > length - at || base > size) return sum;
        sum += plain_fields(bytes + at, base);
        at += size;
    }
    return sum;
}

void plain_copy(byte *to, const byte *from, word length) {
    memcpy(to, from, length);
}
