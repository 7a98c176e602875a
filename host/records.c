#include "records.h"

enum { LEADER = 24 };

/* A number as decimal digits. */
static void digits(byte *at, word width, word value) {
    for (word i = width; i > 0; i--) {
        at[i - 1] = (byte)('0' + value % 10);
        value /= 10;
    }
}

void record_begin(struct record *r) {
    r->a = r->b = 5;
    r->fields = r->body = 0;
}

void field_begin(struct record *r, const char *tag) {
    memcpy(r->directory[r->fields].tag, tag, 4);
    r->directory[r->fields].start = (unsigned)r->body;
}

void field_number(struct record *r, word value, word width) {
    for (word i = 0; i < width; i++) r->bytes[r->body++] = (byte)(value >> 8 * i);
}

void field_text(struct record *r, const char *letters) {
    while (*letters) r->bytes[r->body++] = (byte)*letters++;
    r->bytes[r->body++] = 0x1f;
}

void field_end(struct record *r) {
    struct entry *entry = r->directory + r->fields++;
    r->bytes[r->body++] = 0x1e;
    entry->length = (unsigned)r->body - entry->start;
}

/* Where the fields begin in a record of so many. */
static word base_of(const struct record *r, word fields) {
    return LEADER + fields * (4 + r->a + r->b) + 1;
}

word record_length(const struct record *r) {
    return base_of(r, r->fields) + r->body;
}

word record_length_begun(const struct record *r) {
    return base_of(r, r->fields + 1) + r->body + 1;
}

/* The entries of the directory, and the 1E behind them. */
static void put_directory(byte *at, const struct record *r) {
    for (const struct entry *entry = r->directory; entry < r->directory + r->fields; entry++) {
        memcpy(at, entry->tag, 4);
        digits(at + 4, r->a, entry->length);
        digits(at + 4 + r->a, r->b, entry->start);
        at += 4 + r->a + r->b;
    }
    *at = 0x1e;
}

word put_record(byte *at, const struct record *r, int first) {
    word base = base_of(r, r->fields), length = record_length(r);
    digits(at, 5, length);
    memcpy(at + 5, first ? "3LE1 09" : " D     ", 7);
    digits(at + 12, 5, base);
    memcpy(at + 17, first ? " ! " : "   ", 3);
    digits(at + 20, 1, r->a);
    digits(at + 21, 1, r->b);
    memcpy(at + 22, "04", 2);
    put_directory(at + LEADER, r);
    memcpy(at + base, r->bytes, r->body);
    return length;
}
