#include "hash.h"

word hash(const byte *bytes, word length) {
    return hash_on(0xcbf29ce484222325, bytes, length);
}

word hash_on(word sum, const byte *bytes, word length) {
    for (word i = 0; i < length; i++) sum = (sum ^ bytes[i]) * 0x100000001b3;
    return sum;
}
