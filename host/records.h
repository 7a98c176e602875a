/* Records put together by hand: leader, directory, fields. */
#ifndef EZ_RECORDS_H
#define EZ_RECORDS_H

#include "system.h"

/* A record has at most 99,999 bytes; the shortest field with its entry takes 11 of them where it has a position of five digits. */
enum { LONGEST_RECORD = 99999, MOST_FIELDS = 9100, MOST_BODY = 100000 };

struct entry {
    byte tag[4];
    unsigned start, length;
};

struct record {
    word a, b; /* the widths of lengths and positions in the directory; 5 in written form */
    word fields, body;
    struct entry directory[MOST_FIELDS];
    byte bytes[MOST_BODY];
};

/* A record of no fields yet, to be put in written form. */
void record_begin(struct record *r);

/* A field is begun, filled and ended. */
void field_begin(struct record *r, const char *tag);
void field_number(struct record *r, word value, word width);
void field_text(struct record *r, const char *letters);
void field_end(struct record *r);

/* How long the record is, with a field that is begun or without one, and its bytes put at a place; `first` of its file or not. */
word record_length(const struct record *r);
word record_length_begun(const struct record *r);
word put_record(byte *at, const struct record *r, int first);

#endif
