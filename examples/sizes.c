/* Prints what a mesh without a table asks room for, before there is any claim. From the repository's root:

     bash tests/archive
     cc -Iinclude examples/sizes.c target/staticlib/libpechuvo.a -o target/sizes
     target/sizes sheets/joint_blocks.mesh

   The status is 0 for an accepted mesh, 1 for a refused one, 2 where the file can't be read or the output not be
   written. */
#include <inttypes.h>
#include <stdio.h>

#include "pechuvo.h"

/* No mesh that is accepted has as many bytes. */
#define MOST 65536

static void tell(const struct pechuvo_sizes *sizes) {
  if (sizes->number != 0) {
    printf("refused: %" PRIu32 ", place %" PRIu32 "\n", sizes->number, sizes->place);
    return;
  }
  printf("rows: balance %" PRIu64 ", side %" PRIu64 ", jump %" PRIu64 ", strength %" PRIu64 "; columns %" PRIu64 "\n",
         sizes->balance_rows, sizes->side_rows, sizes->jump_rows, sizes->strength_rows, sizes->columns);
  printf("bytes of a claim: with a field %" PRIu64 ", with multipliers %" PRIu64 ", with both %" PRIu64 "\n",
         sizes->field_bytes, sizes->multipliers_bytes, sizes->both_bytes);
}

int main(int count, char **words) {
  static uint8_t mesh[MOST];
  if (count != 2) {
    fprintf(stderr, "usage: %s MESH\n", words[0]);
    return 2;
  }
  FILE *file = fopen(words[1], "rb");
  size_t length = file != NULL ? fread(mesh, 1, sizeof mesh, file) : 0;
  /* That a file can't be read may show in reading alone: a folder can be opened. */
  if (file == NULL || ferror(file) != 0) {
    perror(words[1]);
    return 2;
  }
  fclose(file);
  struct pechuvo_sizes sizes = pechuvo_mesh_sizes(mesh, length, NULL, 0);
  tell(&sizes);
  /* What was printed may still be kept back, so whether it could be written shows at its end. */
  if (ferror(stdout) != 0 || fclose(stdout) != 0) {
    perror("standard output");
    return 2;
  }
  return sizes.number != 0;
}
