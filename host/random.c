#include "random.h"

/* Splitmix64: one word of state, every seed good. */
word drawn(word *state) {
    word mixed = *state += 0x9e3779b97f4a7c15;
    mixed = (mixed ^ (mixed >> 30)) * 0xbf58476d1ce4e5b9;
    mixed = (mixed ^ (mixed >> 27)) * 0x94d049bb133111eb;
    return mixed ^ (mixed >> 31);
}

word below(word *state, word limit) {
    return drawn(state) % limit;
}

void shuffled(word *state, word *numbers, word count) {
    for (word last = count; last > 1; last--) {
        word other = below(state, last), kept = numbers[last - 1];
        numbers[last - 1] = numbers[other];
        numbers[other] = kept;
    }
}

word strewn(word i) {
    word x = i & 0xffffffff;
    x = ((x ^ (x >> 16)) * 0x85ebca6b) & 0xffffffff;
    x = ((x ^ (x >> 13)) * 0xc2b2ae35) & 0xffffffff;
    return x ^ (x >> 16);
}

/* Another of the numbers below a power of two, which is one more than the mask; different for different ones. */
static word turned(word x, word mask) {
    for (word round = 0; round < 3; round++) {
        x = (x * 0x9e3779b1 + 0x7f4a7c15) & mask;
        x ^= (x >> 3) ^ (x >> 7);
    }
    return x;
}

word mixed(word i, word count) {
    word mask = 1;
    while (mask + 1 < count) mask = 2 * mask + 1;
    do i = turned(i, mask);
    while (i >= count);
    return i;
}
