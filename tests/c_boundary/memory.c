/* See memory.h. */
#define _GNU_SOURCE
#include "memory.h"

#include <stdio.h>
#include <stdlib.h>
#include <string.h>
#include <sys/mman.h>
#include <unistd.h>

static void must(int good, const char *what) {
  if (!good) {
    perror(what);
    exit(2);
  }
}

static struct block lend_pages(size_t length, enum lending how) {
  size_t page = (size_t)sysconf(_SC_PAGESIZE);
  size_t inside = (length + page - 1) / page * page;
  struct block block = {NULL, length, NULL, inside + 2 * page};
  block.base = mmap(NULL, block.mapped, PROT_NONE, MAP_PRIVATE | MAP_ANONYMOUS, -1, 0);
  must(block.base != MAP_FAILED, "mmap");
  unsigned char *open = (unsigned char *)block.base + page;
  must(inside == 0 || mprotect(open, inside, PROT_READ | PROT_WRITE) == 0, "mprotect");
  block.bytes = how == AT_END ? open + inside - length : open;
  return block;
}

struct block lend(const void *from, size_t length, enum lending how) {
  struct block block = {NULL, length, NULL, 0};
  if (how == ON_HEAP) {
    block.bytes = malloc(length);
    must(length == 0 || block.bytes != NULL, "malloc");
  } else {
    block = lend_pages(length, how);
  }
  if (from != NULL && length > 0) {
    memcpy(block.bytes, from, length);
  }
  return block;
}

void close_for_writing(struct block block) {
  if (block.base != NULL) {
    must(mprotect(block.base, block.mapped, PROT_NONE) == 0, "mprotect");
    size_t page = (size_t)sysconf(_SC_PAGESIZE);
    size_t inside = block.mapped - 2 * page;
    unsigned char *open = (unsigned char *)block.base + page;
    must(inside == 0 || mprotect(open, inside, PROT_READ) == 0, "mprotect");
  }
}

void give_back(struct block block) {
  if (block.base == NULL) {
    free(block.bytes);
  } else {
    must(munmap(block.base, block.mapped) == 0, "munmap");
  }
}
