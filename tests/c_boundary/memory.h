/* Memory for the boundary test: blocks that end, or begin, at a page that no one may touch. */
#ifndef MEMORY_H
#define MEMORY_H

#include <stddef.h>

/* How a block is lent: its end or its beginning at a closed page, or exact on the heap, where
   valgrind watches both. */
enum lending { AT_END, AT_START, ON_HEAP };

struct block {
  unsigned char *bytes;
  size_t length;
  void *base;
  size_t mapped;
};

/* A copy of `length` bytes; `from` may be null, the block is then left as it comes. */
struct block lend(const void *from, size_t length, enum lending how);

/* From here on the block may only be read. */
void close_for_writing(struct block block);

void give_back(struct block block);

#endif
