/* What an answer of the archive says. Nothing here judges. */
#ifndef ANSWERS_H
#define ANSWERS_H

#include <stdint.h>

#include "files.h"
#include "pechuvo.h"

/* The report's columns without their spaces, as strings. */
enum { COLUMNS = 4, COLUMN_WIDTH = 28 };

struct columns {
  char text[COLUMNS][COLUMN_WIDTH + 1];
};

struct columns columns_of(const uint8_t *report);

/* What a number says, and what its place counts. */
const char *words_of(uint32_t number);
const char *kind_word(uint32_t number);

/* The same of an answer: no more than its line can have wrong, and a hint where a table is missing. */
const char *says_of(const struct ground *ground, struct pechuvo_answer answer);

/* ACCEPTED or REFUSED. */
int status_of(struct pechuvo_answer answer);

/* Says a refusal on standard error, with the name of the file that it is about: mesh, table or claim. 'which' is the
   claim's place among the claims of a file, 0 where it has a file of its own. What is about the mesh or its table is
   said once, however many claims there are. */
void tell_refusal(const struct ground *ground, const char *claim, uint64_t which, struct pechuvo_answer answer);

/* The same of a refusal that is about a book. */
void tell_book_refusal(const char *book, struct pechuvo_answer answer);

#endif
