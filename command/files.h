/* Files that are read, and the standard streams. */
#ifndef FILES_H
#define FILES_H

#include <stdbool.h>
#include <stddef.h>
#include <stdint.h>
#include <stdio.h>

#include "pechuvo.h"

/* As many bytes of a file are read. A longer file is too long for any mesh, table or claim and is refused as its first
   65,536 bytes are, so the answer is the whole file's. */
#define READ_BYTES 65536

struct file {
  const char *name; /* NULL where none is given */
  size_t length;
  uint8_t bytes[READ_BYTES];
};

/* A file as a call's two arguments. */
#define GIVEN(file) (file).bytes, (file).length

/* A mesh and its table, which has no bytes where none is given. */
struct ground {
  struct file mesh;
  struct file table;
};

/* Each answers whether all could be read, and says so where it could not. */
bool read_file(const char *name, struct file *file);
bool read_ground(const char *mesh, const char *table, struct ground *ground);

/* Each standard stream that is closed gets a file that can't be written, so that no file of ours takes its place. */
bool hold_standard_streams(void);

/* Takes note of what is done even if nothing more can be printed; it is said where that is so. */
void note_done(const char *what);

/* Whether all that was printed is written; said where it is not. */
bool end_output(void);

#endif
