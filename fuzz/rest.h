/* What an input has behind its mesh, claims and table: the rest of what the calls take. Words of eight bytes, as
   tests/independent/programs/compare/found.rs reads them too. */
#ifndef REST_H
#define REST_H

#include "pechuvo.h"

enum { ROOM = 3 * PECHUVO_REPORT + 7, WORDS = 15 };

struct rest {
  double k1, l1, k2, l2;
  struct pechuvo_book book;
  uint64_t named; /* the count that a commit names */
  int64_t decimals;
  uint64_t room;  /* bytes of the buffer, up to ROOM */
  uint64_t place; /* which number of the lists is another one */
  int64_t number;
};

_Static_assert(sizeof(struct rest) == WORDS * sizeof(uint64_t), "words without gaps");

/* For what is cut short or missing. */
static const struct rest usual = {1.0, 0.5, 2.0, 0.25, {0, 0, 0, 0, 0, 0, 0}, 0, 6, ROOM, UINT64_MAX, 0};

#endif
