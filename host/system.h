/* The functions of the C library that are used. The toolchain brings no C headers, so they are declared here: x86-64 Linux, glibc. */
#ifndef EZ_SYSTEM_H
#define EZ_SYSTEM_H

typedef unsigned char byte;
typedef unsigned long word;

/* What the system says of a file. */
struct stat {
    word device, inode, links;
    unsigned mode, user, group, unused;
    word kind_of_device;
    long size, block, blocks;
    word times[6];
    long reserved[3];
};

struct timespec {
    long seconds, nanoseconds;
};

/* Words of `open`, bits of a mode, and the clock of the time that the process ran. */
enum { FOR_READING = 0, FOR_WRITING = 1, NEW = 0300, WITHOUT_WAITING = 04000 };
enum { KIND = 0170000, ORDINARY = 0100000 };
enum { PROCESSOR_TIME = 2 };

void *malloc(word);
void free(void *);
void *memcpy(void *, const void *, word);
void *memset(void *, int, word);
int memcmp(const void *, const void *, word);
int strcmp(const char *, const char *);
word strlen(const char *);
char *strstr(const char *, const char *);
word strtoul(const char *, char **, int);
int printf(const char *, ...);
int dprintf(int, const char *, ...);
int snprintf(char *, word, const char *, ...);
int fflush(void *);
int open(const char *, int, ...);
int close(int);
long read(int, void *, word);
long write(int, const void *, word);
int fsync(int);
int stat(const char *, struct stat *);
int fstat(int, struct stat *);
int rename(const char *, const char *);
int unlink(const char *);
char *realpath(const char *, char *);
void exit(int);
int getpid(void);
int clock_gettime(int, struct timespec *);
int isatty(int);
int usleep(unsigned);
char *strerror(int);
int *__errno_location(void);

#endif
