/* The update files that a command names. */
#ifndef EZ_UPDATES_H
#define EZ_UPDATES_H

#include "files.h"

struct updates {
    char **names; /* by which they were given */
    word count;
    struct file *files;
};

/* Reads all of them; DONE or TROUBLE. */
int gathered(struct updates *updates);

/* Sees that none of them is to be overwritten, and no other update, since the name of the result is easily forgotten; DONE or TROUBLE. */
int spared(const struct updates *updates, const char *to);

/* Puts a file at a place, behind a head that says its length; where the next one goes. */
typedef byte *putting(byte *at, const byte *file, word length);

/* All of them put one after the other, each behind a head of so many bytes, and how long that is; null for trouble, which is said: there is no
   memory, or one is not short enough for the head. */
byte *joined(const struct updates *updates, word head, int (*short_enough)(word length), putting *put, word *length);

#endif
