/* A book as a file: read strictly, and written anew beside the old file, over which it is then renamed. */
#ifndef BOOK_FILE_H
#define BOOK_FILE_H

#include <stdbool.h>
#include <stdint.h>

#include "book_text.h"
#include "files.h"

/* The sum over a mesh and its table. */
uint64_t sum_of(const struct ground *ground);

/* Each of the following says what fails. */

/* Makes the file of an empty book; a file that is there is left as it is. */
bool make_book(const char *name);

bool read_book(const char *name, struct kept_book *kept);

/* A book that may be written anew: from its begin to its end no other command writes it. */
struct rewriting {
  char *name; /* of the book itself, where the given name is a link to it */
  char *new_name;
  int lock; /* the book's file, which is locked; -1 for none */
};

/* Waits while another command writes this book. */
bool begin_rewriting(const char *name, struct rewriting *next);

/* Writes the next book beside the old one and renames it over that one. */
bool end_rewriting(struct rewriting *next, const struct kept_book *kept);

/* Leaves the old file as it is. */
void give_up_rewriting(struct rewriting *next);

#endif
