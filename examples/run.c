/* Prints the reports of claims for one mesh without a table that stand one after another in a file. From the
   repository's root:

     bash tests/archive
     cc -Iinclude examples/run.c target/staticlib/libpechuvo.a -o target/run
     target/run sheets/runs/footing_steps.mesh sheets/runs/footing_steps.claims

   The status is 0 where all claim bytes were taken, 1 where some were not, 2 where a file can't be read, has no claim,
   or the output can't be written. */
#include <stdio.h>

#include "pechuvo.h"

/* No mesh and no claim has as many bytes as MOST; room for fifty claims and their reports. */
#define MOST 65536
#define CLAIMS 50

/* The length of a file, above 'most' where it can't be read. That may show in reading alone: a folder can be
   opened. */
static size_t read_file(const char *name, uint8_t *bytes, size_t most) {
  FILE *file = fopen(name, "rb");
  if (file == NULL) {
    perror(name);
    return most + 1;
  }
  size_t length = fread(bytes, 1, most, file);
  if (ferror(file) != 0) {
    perror(name);
    length = most + 1;
  }
  fclose(file);
  return length;
}

int main(int count, char **words) {
  static uint8_t mesh[MOST], claims[CLAIMS * MOST], reports[CLAIMS * PECHUVO_REPORT];
  if (count != 3) {
    fprintf(stderr, "usage: %s MESH CLAIMS\n", words[0]);
    return 2;
  }
  size_t mesh_length = read_file(words[1], mesh, sizeof mesh);
  size_t claims_length = read_file(words[2], claims, sizeof claims);
  if (mesh_length > sizeof mesh || claims_length > sizeof claims) {
    return 2;
  }
  struct pechuvo_run run =
      pechuvo_check_run(mesh, mesh_length, NULL, 0, claims, claims_length, reports, sizeof reports);
  if (run.reports == 0) {
    fprintf(stderr, "%s: no claim is in it\n", words[2]);
    return 2;
  }
  fwrite(reports, PECHUVO_REPORT, run.reports, stdout);
  /* What was printed may still be kept back, so whether it could be written shows at its end. */
  if (ferror(stdout) != 0 || fclose(stdout) != 0) {
    perror("standard output");
    return 2;
  }
  return run.bytes != claims_length;
}
