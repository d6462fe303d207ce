/* Whole numbers in text, each in its one spelling: no plus, no leading zero, no minus zero, nothing around it. */
#ifndef WHOLE_H
#define WHOLE_H

#include <stdbool.h>
#include <stdint.h>

bool read_signed(const char *text, int64_t *number);

bool read_unsigned(const char *text, uint64_t *number);

#endif
