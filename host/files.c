#include "files.h"
#include "words.h"

/* Says what was wrong with a file; 0. */
static int failed(const char *path, const char *what) {
    trouble(path, what);
    return 0;
}

static int filled(int from, const char *path, byte *bytes, word length) {
    for (word got = 0; got < length;) {
        long n = read(from, bytes + got, length - got);
        if (n <= 0) return failed(path, n < 0 ? reason() : "it became shorter while it was read");
        got += (word)n;
    }
    return 1;
}

/* What an open file holds. */
static int taken(int from, const char *path, struct file *file) {
    struct stat is;
    if (fstat(from, &is) < 0) return failed(path, reason());
    if ((is.mode & KIND) != ORDINARY) return failed(path, "it is no ordinary file");
    file->length = (word)is.size;
    file->device = is.device;
    file->inode = is.inode;
    file->bytes = malloc(file->length + 1);
    if (!file->bytes) return failed(path, "there is no memory for it");
    if (filled(from, path, file->bytes, file->length)) return 1;
    free(file->bytes);
    return 0;
}

int loaded(const char *path, struct file *file) {
    int from = open(path, FOR_READING | WITHOUT_WAITING);
    if (from < 0) return failed(path, reason());
    int whole = taken(from, path, file);
    close(from);
    return whole;
}

int is_there(const char *path) {
    struct stat is;
    return stat(path, &is) == 0;
}

int leads_elsewhere(const char *path, const struct file *file, const char *role) {
    struct stat is;
    char what[80];
    if (stat(path, &is) < 0 || is.device != file->device || is.inode != file->inode) return 1;
    snprintf(what, sizeof what, "it is the %s itself, which is never overwritten", role);
    return failed(path, what);
}

static int put_all(int to, const byte *bytes, word length) {
    for (word put = 0; put < length;) {
        long n = write(to, bytes + put, length - put);
        if (n <= 0) return 0;
        put += (word)n;
    }
    return 1;
}

/* Writes a new file `beside` to the disk, then gives it its name. */
static int replaced(const char *path, const char *beside, const byte *bytes, word length) {
    int to = open(beside, FOR_WRITING | NEW, 0666);
    if (to < 0) return failed(path, reason());
    int kept = put_all(to, bytes, length) && fsync(to) == 0;
    kept = close(to) == 0 && kept;
    if (kept && rename(beside, path) == 0) return 1;
    failed(path, reason());
    unlink(beside);
    return 0;
}

/* As `saved`, where no name on the way is a link. */
static int saved_plainly(const char *path, const byte *bytes, word length) {
    word room = strlen(path) + 32;
    char *beside = malloc(room);
    if (!beside) return failed(path, "there is no memory for a name");
    snprintf(beside, room, "%s.new-%d", path, getpid());
    int done = replaced(path, beside, bytes, length);
    free(beside);
    return done;
}

int saved(const char *path, const byte *bytes, word length) {
    struct stat is;
    if (stat(path, &is) == 0 && (is.mode & KIND) != ORDINARY) return failed(path, "it is no ordinary file");
    char *behind = realpath(path, 0);
    int done = saved_plainly(behind ? behind : path, bytes, length);
    free(behind);
    return done;
}
