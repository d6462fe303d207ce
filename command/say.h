/* What is said on standard error, and the statuses. */
#ifndef SAY_H
#define SAY_H

#include <stdio.h>

/* The exit statuses, each worse than the one before. */
enum { ACCEPTED = 0, REFUSED = 1, FAILED = 2 };

int worse(int status, int other);

/* A file's name on one line: bytes that would end or hide the line are written as question marks. */
void put_name(FILE *out, const char *name);

/* "pechuvo: NAME: what". Both return FAILED. */
int complain(const char *name, const char *what);

/* The same with what the system says of its last call. */
int complain_of_system(const char *name);

#endif
