/* The mutator of inputs. */
#ifndef MUTATE_H
#define MUTATE_H

#include <stddef.h>
#include <stdint.h>

/* How long the part is that bytes begin with, up to a byte 0. */
size_t part_length(const uint8_t *bytes, size_t length);

#endif
