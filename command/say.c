/* What goes to standard error. */
#include "say.h"

#include <errno.h>
#include <string.h>

int worse(int status, int other) {
  return status > other ? status : other;
}

void put_name(FILE *out, const char *name) {
  if (*name == '\0') {
    fputs("''", out);
  }
  for (; *name != '\0'; name++) {
    unsigned char byte = (unsigned char)*name;
    fputc(byte < 32 || byte == 127 ? '?' : byte, out);
  }
}

int complain(const char *name, const char *what) {
  fputs("pechuvo: ", stderr);
  put_name(stderr, name);
  fprintf(stderr, ": %s\n", what);
  return FAILED;
}

int complain_of_system(const char *name) {
  return complain(name, strerror(errno));
}
