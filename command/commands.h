/* The commands. Each takes what stands after its name and answers the exit status. */
#ifndef COMMANDS_H
#define COMMANDS_H

#include "arguments.h"

int check(const struct arguments *given);
int run(const struct arguments *given);
int sizes(const struct arguments *given);
int book(const struct arguments *given);

#endif
