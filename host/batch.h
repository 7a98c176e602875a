/* Framed cases, answered a line each. */
#ifndef EZ_BATCH_H
#define EZ_BATCH_H

/* Answers the cases of a file with the proved library; a status of the tool. */
int batch(const char *path);

#endif
