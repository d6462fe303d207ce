/* Mutates an input: one column of one line, so that the file stays well formed, the claim once more, a word of the
   rest, or any bytes. */
#include "mutate.h"

#include <stdio.h>
#include <stdlib.h>
#include <string.h>

#include "rest.h"

enum { COLUMN = 12 };

size_t LLVMFuzzerMutate(uint8_t *data, size_t size, size_t largest);

static const int64_t limits[] = {0,      1,       2,        3,         4,         12,
                                 16,     20,      36,       40,        60,        100,
                                 108,    300,     1000,     2000,      1001,      32,
                                 10000,  100000,  1000000,  100000000, 1000000000, -1000,
                                 -10000, -100000, -100000000, -1000000000, 999999999998, -99999999998};

static int64_t near_limit(void) {
  return limits[(size_t)rand() % (sizeof limits / sizeof limits[0])] + rand() % 3 - 1;
}

size_t part_length(const uint8_t *bytes, size_t length) {
  const uint8_t *end = length ? memchr(bytes, 0, length) : NULL;
  return end ? (size_t)(end - bytes) : length;
}

/* Rewrites one column of one line. */
static size_t change_column(uint8_t *data, size_t size) {
  size_t at = (size_t)rand() % size;
  while (at > 0 && data[at - 1] != '\n' && data[at - 1] != 0) {
    at -= 1;
  }
  at += COLUMN * (size_t)(rand() % 5);
  if (at + COLUMN > size) {
    return size;
  }
  char column[COLUMN + 1] = {0}, text[32];
  memcpy(column, data + at, COLUMN);
  int64_t number = rand() % 2 ? strtoll(column, NULL, 10) + rand() % 3 - 1 : near_limit();
  snprintf(text, sizeof text, "%12lld", (long long)number);
  memcpy(data + at, text, COLUMN);
  return size;
}

/* The claims once more behind themselves: a run of them. */
static size_t repeat_claims(uint8_t *data, size_t size, size_t largest) {
  size_t from = part_length(data, size) + 1;
  if (from >= size) {
    return size;
  }
  size_t length = part_length(data + from, size - from);
  if (size + length > largest) {
    return size;
  }
  memmove(data + from + length, data + from, size - from);
  return size + length;
}

/* A word of the rest, the first four being numbers in binary64. */
static uint64_t any_word(const uint64_t *words, size_t k) {
  double number = (rand() % 1024 + 1) / 64.0;
  uint64_t word;
  memcpy(&word, &number, sizeof word);
  switch (rand() % 4) {
  case 0:
    return words[rand() % WORDS];
  case 1:
    return (uint64_t)rand() << 33 ^ (uint64_t)rand() << 16 ^ (uint64_t)rand();
  default:
    return k < 4 ? word : (uint64_t)near_limit();
  }
}

/* One word of what follows the table; what isn't there is put there first. */
static size_t change_rest(uint8_t *data, size_t size, size_t largest) {
  size_t at = 0;
  for (int part = 0; part < 3; part++) {
    at += part_length(data + at, size - at);
    if (at == size) {
      if (size == largest) {
        return size;
      }
      data[size++] = 0;
    }
    at += 1;
  }
  uint64_t words[WORDS];
  if (at + sizeof words > largest) {
    return size;
  }
  memcpy(words, &usual, sizeof words);
  memcpy(words, data + at, size - at < sizeof words ? size - at : sizeof words);
  size_t k = (size_t)rand() % WORDS;
  words[k] = any_word(words, k);
  memcpy(data + at, words, sizeof words);
  return at + sizeof words;
}

size_t LLVMFuzzerCustomMutator(uint8_t *data, size_t size, size_t largest, unsigned int seed) {
  srand(seed);
  int what = rand() % 12;
  if (size < COLUMN || what < 4) {
    return LLVMFuzzerMutate(data, size, largest);
  }
  if (what == 4) {
    return repeat_claims(data, size, largest);
  }
  return what == 5 ? change_rest(data, size, largest) : change_column(data, size);
}
