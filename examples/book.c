/* Gathers claims for one mesh without a table into a book of the best bracket. From the repository's root:

     bash tests/archive
     cc -Iinclude examples/book.c target/staticlib/libpechuvo.a -o target/book
     target/book sheets/worked.mesh sheets/worked.claim sheets/worked_below.claim

   The status is 0 where every claim was accepted, 1 where one was refused, 2 where a file can't be read or the output
   not be written. */
#include <inttypes.h>
#include <stdio.h>

#include "pechuvo.h"

/* No mesh or claim that is accepted has as many bytes. */
#define MOST 65536

/* The length of a file, or -1. That it can't be read may show in reading alone: a folder can be opened. */
static long read_file(const char *name, uint8_t *bytes) {
  FILE *file = fopen(name, "rb");
  if (file == NULL) {
    perror(name);
    return -1;
  }
  long length = (long)fread(bytes, 1, MOST, file);
  if (ferror(file) != 0) {
    perror(name);
    length = -1;
  }
  fclose(file);
  return length;
}

static void tell(const struct pechuvo_book *book) {
  printf("claims: %" PRIu64 "\n", book->count);
  if (book->lower_there != 0) {
    printf("carried: %" PRId64 "/%" PRId64 "\n", book->lower_numerator, book->lower_denominator);
  }
  if (book->upper_there != 0) {
    printf("limit: %" PRId64 "/%" PRId64 "\n", book->upper_numerator, book->upper_denominator);
  }
}

int main(int count, char **words) {
  static uint8_t mesh[MOST], claim[MOST];
  if (count < 2) {
    fprintf(stderr, "usage: %s MESH CLAIM..\n", words[0]);
    return 2;
  }
  long mesh_length = read_file(words[1], mesh);
  if (mesh_length < 0) {
    return 2;
  }
  struct pechuvo_book book = {0};
  int status = 0;
  for (int k = 2; k < count; k++) {
    long length = read_file(words[k], claim);
    if (length < 0) {
      return 2;
    }
    struct pechuvo_book_answer answer =
        pechuvo_book_commit(book, book.count, mesh, (size_t)mesh_length, NULL, 0, claim, (size_t)length);
    if (answer.number != 0) {
      printf("%s: refused: %" PRIu32 ", place %" PRIu32 "\n", words[k], answer.number, answer.place);
      status = 1;
    }
    book = answer.book;
  }
  tell(&book);
  /* What was printed may still be kept back, so whether it could be written shows at its end. */
  if (ferror(stdout) != 0 || fclose(stdout) != 0) {
    perror("standard output");
    return 2;
  }
  return status;
}
