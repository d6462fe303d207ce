/* Prints the report line of a mesh file and a claim file, and of a table file where there is one. From the
   repository's root:

     bash tests/archive
     cc -Iinclude examples/check.c target/staticlib/libpechuvo.a -o target/check
     target/check sheets/worked.mesh sheets/worked.claim
     target/check sheets/table_slope.mesh sheets/table_slope.claim sheets/table_slope.table

   The status is 0 where the claim is accepted, 1 where it is refused, 2 where a file can't be read or the output not
   be written. */
#include <stdio.h>

#include "pechuvo.h"

/* No mesh, no claim and no table has as many bytes. */
#define MOST 65536

/* 0 to 7. */
#define DECIMALS 6

/* The length of a file, above MOST where it can't be read. That may show in reading alone: a folder can be opened. */
static size_t read_file(const char *name, uint8_t *bytes) {
  FILE *file = fopen(name, "rb");
  if (file == NULL) {
    perror(name);
    return MOST + 1;
  }
  size_t length = fread(bytes, 1, MOST, file);
  if (ferror(file) != 0) {
    perror(name);
    length = MOST + 1;
  }
  fclose(file);
  return length;
}

int main(int count, char **words) {
  static uint8_t mesh[MOST], claim[MOST], table[MOST];
  uint8_t report[PECHUVO_REPORT];
  if (count != 3 && count != 4) {
    fprintf(stderr, "usage: %s MESH CLAIM [TABLE]\n", words[0]);
    return 2;
  }
  size_t mesh_length = read_file(words[1], mesh);
  size_t claim_length = read_file(words[2], claim);
  size_t table_length = count == 4 ? read_file(words[3], table) : 0;
  if (mesh_length > MOST || claim_length > MOST || table_length > MOST) {
    return 2;
  }
  struct pechuvo_answer answer = pechuvo_check(mesh, mesh_length, table, table_length, claim, claim_length,
                                               DECIMALS, report, sizeof report);
  fwrite(report, 1, sizeof report, stdout);
  /* What was printed may still be kept back, so whether it could be written shows at its end. */
  if (ferror(stdout) != 0 || fclose(stdout) != 0) {
    perror("standard output");
    return 2;
  }
  return answer.number != 0;
}
