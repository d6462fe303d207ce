/* A book as text, and back. */
#include "book_text.h"

#include <inttypes.h>
#include <stdio.h>
#include <stdlib.h>
#include <string.h>

#include "whole.h"

static void bound_text(uint32_t there, int64_t numerator, int64_t denominator, char text[BOUND_TEXT]) {
  if (there == 0) {
    snprintf(text, BOUND_TEXT, "none");
  } else {
    snprintf(text, BOUND_TEXT, "%" PRId64 "/%" PRId64, numerator, denominator);
  }
}

void lower_text(const struct pechuvo_book *book, char text[BOUND_TEXT]) {
  bound_text(book->lower_there, book->lower_numerator, book->lower_denominator, text);
}

void upper_text(const struct pechuvo_book *book, char text[BOUND_TEXT]) {
  bound_text(book->upper_there, book->upper_numerator, book->upper_denominator, text);
}

static void mesh_text(const struct kept_book *kept, char text[BOUND_TEXT]) {
  if (kept->mesh_there) {
    snprintf(text, BOUND_TEXT, "%016" PRIx64, kept->mesh);
  } else {
    snprintf(text, BOUND_TEXT, "none");
  }
}

void write_book_text(const struct kept_book *kept, char text[BOOK_TEXT]) {
  char mesh[BOUND_TEXT], lower[BOUND_TEXT], upper[BOUND_TEXT];
  mesh_text(kept, mesh);
  lower_text(&kept->book, lower);
  upper_text(&kept->book, upper);
  snprintf(text, BOOK_TEXT, "pechuvo book\nmesh %s\nlower %s\nupper %s\ncount %" PRIu64 "\n", mesh, lower, upper,
           kept->book.count);
}

/* The front of what is left of the text, where it is this piece. */
static bool take(const char **rest, const char *piece) {
  size_t length = strlen(piece);
  bool there = strncmp(*rest, piece, length) == 0;
  *rest += there ? length : 0;
  return there;
}

/* A line: its word, and the value after it. */
static bool take_line(const char **rest, const char *word, char value[BOUND_TEXT]) {
  if (!take(rest, word)) {
    return false;
  }
  size_t length = strcspn(*rest, "\n");
  if (length >= BOUND_TEXT || (*rest)[length] == '\0') {
    return false;
  }
  memcpy(value, *rest, length);
  value[length] = '\0';
  *rest += length + 1;
  return true;
}

static bool read_mesh(const char *value, struct kept_book *kept) {
  char spelled[BOUND_TEXT];
  kept->mesh_there = strcmp(value, "none") != 0;
  kept->mesh = kept->mesh_there ? strtoull(value, NULL, 16) : 0;
  mesh_text(kept, spelled);
  return strcmp(spelled, value) == 0;
}

static bool read_bound(char *value, uint32_t *there, int64_t *numerator, int64_t *denominator) {
  *there = strcmp(value, "none") != 0;
  if (*there == 0) {
    return true;
  }
  char *slash = strchr(value, '/');
  if (slash == NULL) {
    return false;
  }
  *slash = '\0';
  return read_signed(value, numerator) && read_signed(slash + 1, denominator);
}

int read_book_text(const char *text, size_t length, struct kept_book *kept) {
  *kept = (struct kept_book){0};
  struct pechuvo_book *book = &kept->book;
  const char *rest = text;
  char value[BOUND_TEXT];
  if (!take(&rest, "pechuvo book\n")) {
    return 1;
  }
  if (!take_line(&rest, "mesh ", value) || !read_mesh(value, kept)) {
    return 2;
  }
  if (!take_line(&rest, "lower ", value) ||
      !read_bound(value, &book->lower_there, &book->lower_numerator, &book->lower_denominator)) {
    return 3;
  }
  if (!take_line(&rest, "upper ", value) ||
      !read_bound(value, &book->upper_there, &book->upper_numerator, &book->upper_denominator)) {
    return 4;
  }
  if (!take_line(&rest, "count ", value) || !read_unsigned(value, &book->count)) {
    return 5;
  }
  return rest == text + length ? 0 : 6;
}
