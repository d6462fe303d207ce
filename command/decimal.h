/* A fraction with decimals, as a report has its loads. */
#ifndef DECIMAL_H
#define DECIMAL_H

#include <stdint.h>

/* Which way what is left over is rounded: a carried load down, a limit up. */
enum rounding { ROUNDED_DOWN, ROUNDED_UP };

/* Room for the longest, its minus, its point and the byte 0. */
enum { DECIMAL_TEXT = 32 };

/* The fraction with PECHUVO_USUAL_DECIMALS decimals; 'none' where the denominator is not above 0. */
void decimal_text(int64_t numerator, int64_t denominator, enum rounding rounding, char text[DECIMAL_TEXT]);

#endif
