/* What the tool says: answers in words, numbers for people, troubles. */
#ifndef EZ_WORDS_H
#define EZ_WORDS_H

#include "ezdurvash.h"
#include "system.h"

/* The tool's status: done, refused by the rules, or usage and files. */
enum { DONE = 0, REFUSED = 1, TROUBLE = 2 };

/* The room that a number with its commas needs. */
enum { DIGITS = 32 };

/* A number with a comma after each three digits, in the room. */
const char *counted(word number, char room[DIGITS]);

/* A byte of a tag or a name, for people. */
char printable(word letter);

/* Says what was wrong with a file or another subject; TROUBLE. */
int trouble(const char *subject, const char *what);

/* What the system gave as the reason of the last call that failed. */
const char *reason(void);

/* What a refusal's number means. */
const char *meaning(word number);

/* Prints an answer in words; DONE or REFUSED. The written length is said where the call writes. */
int said(const word answer[EZDURVASH_NUMBERS], int writes);

#endif
