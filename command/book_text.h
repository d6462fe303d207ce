/* The text of a book, which has one form:

     pechuvo book
     mesh 8a1f00c2d4e6b793
     lower 20/1
     upper 600/30
     count 1

   'none' stands for what is not there. The mesh's line is a sum over the bytes of the mesh and its table: a claim for
   another mesh is a mistake that the archive can't see. */
#ifndef BOOK_TEXT_H
#define BOOK_TEXT_H

#include <stdbool.h>
#include <stddef.h>
#include <stdint.h>

#include "pechuvo.h"

struct kept_book {
  struct pechuvo_book book;
  bool mesh_there;
  uint64_t mesh;
};

/* Room for the longest bound, for the longest text of a book, and for the byte 0 of each. */
enum { BOUND_TEXT = 48, BOOK_TEXT = 192 };

/* A bound as it stands in the text. */
void lower_text(const struct pechuvo_book *book, char text[BOUND_TEXT]);
void upper_text(const struct pechuvo_book *book, char text[BOUND_TEXT]);

void write_book_text(const struct kept_book *kept, char text[BOOK_TEXT]);

/* 0 where the text is just what write_book_text makes of the book that is read; else the first line that is not. */
int read_book_text(const char *text, size_t length, struct kept_book *kept);

#endif
