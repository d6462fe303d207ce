/* Checks claims that a program has as numbers, without any file, and asks for the next strength to try. From the
   repository's root:

     bash tests/archive
     cc -Iinclude examples/numbers.c target/staticlib/libpechuvo.a -o target/numbers
     target/numbers

   The numbers are those of sheets/worked, in the order of its files (docs/FILES.md). The status is 0 where all went as
   written here, 1 where something was refused that should not be, 2 where the output can't be written. */
#include <inttypes.h>
#include <stdio.h>

#include "pechuvo.h"

enum { NODES = 4, SIDES = 12, LOAD = 3 };

static const int64_t mesh[] = {
    NODES, 1, 1, 3, SIDES, 0,        /* nodes, elements, soils, edges, sides, jumps */
    0, 1, 1, 10, 0, 0, 0, 0, 0, 0,   /* the soil: p q h, cohesion, dead and live force, kind, cv */
    0, 0, 1, 0, 1, 1, 0, 1,          /* x and y of each node */
    1, 2, 3, 4, 1,                   /* the element: its nodes, its soil */
    3, 4, 3, 0, 0, -1, 0,            /* the edge at the top: from, to, fixed, dead and live normal and shear */
    2, 3, 3, 0, 0, 0, 0,             /* the upright ones are free of load */
    4, 1, 3, 0, 0, 0, 0,
};

static int64_t claim[] = {
    1, 1, 1, 0,                                  /* field and multipliers are there; n; l */
    0, 0, 0, 0, 0, 0, 0, 0, 0, 0, 0, 0,          /* sx, sy, t of each node */
    0, 0,                                        /* multipliers: the element's balance, */
    30, 0, 0, 0, 0, 0, -30, 0, 0, 0, 0, 0,       /* the edges, */
    0, 0, 0, 0, 0, 0, 0, 0, 0, 0, 0, 0,          /* and the sides of each pair of a node and a soil */
    0, 0, 0, 0, 0, 0, 0, 0, 0, 0, 0, 0,
    1, 0, 0, 0, 0, 0, 0, 0, 0, 0, 0, 1,
    0, 0, 0, 0, 0, 0, 0, 0, 0, 0, 0, 0,
};

#define COUNT(numbers) (sizeof numbers / sizeof *numbers)

/* The same field for any load: sy is the pressure from above. */
static uint32_t check(int64_t load) {
  claim[LOAD] = load;
  for (int node = 0; node < NODES; node++) {
    claim[LOAD + 1 + 3 * node + 1] = -load;
  }
  struct pechuvo_numbers told = pechuvo_check_numbers(mesh, COUNT(mesh), NULL, 0, claim, COUNT(claim));
  if (told.number != 0) {
    printf("%" PRId64 ": refused: %" PRIu32 ", place %" PRIu32 "\n", load, told.number, told.place);
  } else {
    printf("%" PRId64 ": carried %" PRId64 "/%" PRId64 ", limit %" PRId64 "/%" PRId64 ", open rows %" PRIu64 "\n",
           load, told.l, told.n, told.w, told.m, told.open_rows);
  }
  return told.number;
}

int main(void) {
  uint32_t carried = check(20), too_much = check(21);
  /* Two trials of a strength reduction: strength 1 with the load factor 1.25, strength 0.75 with 0.9375. */
  struct pechuvo_next next = pechuvo_next_strength(1, 1.25, 0.75, 0.9375);
  printf("next strength: %.6f\n", next.strength);
  int good = carried == 0 && too_much == PECHUVO_STRENGTH_FAILS && next.number == 0;
  /* What was printed may still be kept back, so whether it could be written shows at its end. */
  if (ferror(stdout) != 0 || fclose(stdout) != 0) {
    perror("standard output");
    return 2;
  }
  return good ? 0 : 1;
}
