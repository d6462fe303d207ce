/* Whole numbers as text, and back. */
#include "whole.h"

#include <inttypes.h>
#include <stdio.h>
#include <stdlib.h>
#include <string.h>

/* Room for the longest number, its minus and the byte 0. */
enum { ROOM = 24 };

/* A number's one spelling is the one that it is printed with, so a text that differs from it is none. */
bool read_signed(const char *text, int64_t *number) {
  char spelled[ROOM];
  *number = strtoll(text, NULL, 10);
  snprintf(spelled, sizeof spelled, "%" PRId64, *number);
  return strcmp(spelled, text) == 0;
}

bool read_unsigned(const char *text, uint64_t *number) {
  char spelled[ROOM];
  *number = strtoull(text, NULL, 10);
  snprintf(spelled, sizeof spelled, "%" PRIu64, *number);
  return strcmp(spelled, text) == 0;
}
