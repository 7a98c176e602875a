/* Files as whole byte strings, read and written. */
#ifndef EZ_FILES_H
#define EZ_FILES_H

#include "system.h"

struct file {
    byte *bytes; /* never null where the file was read, also where it is empty */
    word length;
    word device, inode;
};

/* Reads a whole file; 0 where it cannot be read, which is then said. */
int loaded(const char *path, struct file *file);

/* Whether the path leads to anything. */
int is_there(const char *path);

/* Whether the path leads elsewhere than to this file, by whatever name or link; if not, it is said, and in which role the file was read. */
int leads_elsewhere(const char *path, const struct file *file, const char *role);

/* Puts the bytes into the file of this path by way of a new file beside it: whoever looks sees the old file or the whole new one.
   0 where it cannot be done, which is then said; the old file is then as it was. */
int saved(const char *path, const byte *bytes, word length);

#endif
