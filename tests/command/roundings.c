/* For each line of standard input, a numerator and a denominator: the fraction rounded down and rounded up. */
#include <inttypes.h>
#include <stdio.h>

#include "decimal.h"

int main(void) {
  int64_t numerator, denominator;
  while (scanf("%" SCNd64 " %" SCNd64, &numerator, &denominator) == 2) {
    char down[DECIMAL_TEXT], up[DECIMAL_TEXT];
    decimal_text(numerator, denominator, ROUNDED_DOWN, down);
    decimal_text(numerator, denominator, ROUNDED_UP, up);
    printf("%s %s\n", down, up);
  }
  return 0;
}
