/* A file that is put together record by record until its room is full. */
#ifndef EZ_PILE_H
#define EZ_PILE_H

#include "shapes.h"

struct pile {
    byte *bytes;
    word length, room, records;
};

/* The first records of a dataset, and of its update. */
void dataset_begun(struct pile *p);
void update_begun(struct pile *p);

/* How many bytes there is room for, and how many a begun field of a record may still take, in the record and in the room. */
word left(const struct pile *p);
word spare(const struct pile *p, const struct record *r);

/* Each of these puts a record behind the others; 0 where there is no room for it. */
int piled(struct pile *p, const struct record *r);
int pile_point(struct pile *p, word rcid, word version, word instruction);

/* A record of this kind with no field but its identifier, in the shortest form: 40 bytes for a point or multi point. */
int pile_bare(struct pile *p, int kind, word rcid, word version, word instruction);

/* How long a point is. */
enum { POINT_LENGTH = 71, BARE_LENGTH = 40 };

/* Puts records with the RCIDs of 1, 2, 3 .. until the room is full but for so many bytes; how many there are. */
word filled_with_points(struct pile *p, word (*rcid)(word), word but);
word filled_with_bare(struct pile *p, word (*rcid)(word), word but);

/* RCIDs that ascend without gaps. */
word rising(word i);

#endif
