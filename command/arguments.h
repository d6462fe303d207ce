/* The words after a command: options, and operands in their order. */
#ifndef ARGUMENTS_H
#define ARGUMENTS_H

#include <stdbool.h>

/* The options, as bits of a set. */
enum { TABLE = 1, DECIMALS = 2, COUNT = 4, JSON = 8 };

struct arguments {
  const char *table; /* NULL where an option is not given */
  const char *decimals;
  const char *count;
  bool json;
  int operands;
  char **operand;
};

/* Takes words apart; 'options' are those that the command takes. After '--' every word is an operand. Operands are
   moved to the front of 'words'. Where a word does not fit, that is said, and false is answered. */
bool take_arguments(unsigned options, int count, char **words, struct arguments *taken);

/* Whether an option stands before any '--'. */
bool is_asked(const char *option, int count, char **words);

#endif
