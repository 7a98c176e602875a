#include "updates.h"
#include "words.h"

int gathered(struct updates *updates) {
    updates->files = malloc(updates->count * sizeof *updates->files);
    if (!updates->files) return trouble("updates", "there is no memory for so many files");
    for (word i = 0; i < updates->count; i++)
        if (!loaded(updates->names[i], updates->files + i)) return TROUBLE;
    return DONE;
}

/* The tags of a general record and of a dataset's third, as ezdurvash_field gives them. */
enum { DSID = 0x44534944, CSID = 0x43534944 };

/* Whether a file is an update: it has a general record, and behind it no CSID, as every dataset has. */
static int is_update(const struct file *file) {
    word field[EZDURVASH_FIELD];
    if (!ezdurvash_field(file->bytes, file->length, 2, 1, field, EZDURVASH_FIELD) || field[0] != DSID) return 0;
    return !ezdurvash_field(file->bytes, file->length, 3, 1, field, EZDURVASH_FIELD) || field[0] != CSID;
}

/* Sees that the last of the words, where the one for the result was forgotten, does not cost an update. */
static int forgotten(const char *to) {
    struct file there;
    if (!is_there(to)) return 0;
    if (!loaded(to, &there)) return 1;
    int update = is_update(&there);
    free(there.bytes);
    if (update) trouble(to, "it is an update; name the file for the result behind the updates");
    return update;
}

int spared(const struct updates *updates, const char *to) {
    for (word i = 0; i < updates->count; i++)
        if (!leads_elsewhere(to, updates->files + i, "update")) return TROUBLE;
    return forgotten(to) ? TROUBLE : DONE;
}

byte *joined(const struct updates *updates, word head, int (*short_enough)(word length), putting *put, word *length) {
    *length = 0;
    for (word i = 0; i < updates->count; i++) {
        if (!short_enough(updates->files[i].length)) {
            trouble(updates->names[i], "it is too long to be joined to others");
            return 0;
        }
        *length += head + updates->files[i].length;
    }
    byte *all = malloc(*length), *at = all;
    if (!all) trouble("updates", "there is no memory for all of them together");
    for (word i = 0; all && i < updates->count; i++) at = put(at, updates->files[i].bytes, updates->files[i].length);
    return all;
}
