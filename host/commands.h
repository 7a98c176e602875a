/* The words that work on one chart in a file. Each answers a status of the tool. */
#ifndef EZ_COMMANDS_H
#define EZ_COMMANDS_H

int read_chart(const char *path);

int list_chart(const char *path);

/* The fields of the record with this number, from 1: tag, where its bytes begin in the file, and how many there are before its closing 1E. */
int show_fields(const char *path, const char *number);

/* Puts a file in the place of `to`: only where the rules accept, never in the place of what is read. */
int write_chart(const char *path, const char *to);

#endif
