/* Exact division in whole numbers. */
#include "decimal.h"

#include <inttypes.h>
#include <stdbool.h>
#include <stdio.h>

#include "pechuvo.h"

/* Room for a numerator times a million. */
__extension__ typedef unsigned __int128 wide;

enum { MILLION = 1000000 };

_Static_assert(PECHUVO_USUAL_DECIMALS == 6, "a millionth is the last place");

void decimal_text(int64_t numerator, int64_t denominator, enum rounding rounding, char text[DECIMAL_TEXT]) {
  if (denominator <= 0) {
    snprintf(text, DECIMAL_TEXT, "none");
    return;
  }
  bool below = numerator < 0;
  /* In 64 bits without a sign, the least number has its size too. */
  uint64_t size = below ? 0 - (uint64_t)numerator : (uint64_t)numerator;
  wide scaled = (wide)size * MILLION, divisor = (wide)denominator;
  wide millionths = scaled / divisor;
  /* Rounding down makes a number below 0 longer, and rounding up one above 0. */
  if (scaled % divisor != 0 && below == (rounding == ROUNDED_DOWN)) {
    millionths++;
  }
  snprintf(text, DECIMAL_TEXT, "%s%" PRIu64 ".%06" PRIu64, below && millionths != 0 ? "-" : "",
           (uint64_t)(millionths / MILLION), (uint64_t)(millionths % MILLION));
}
