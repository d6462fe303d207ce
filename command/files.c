/* A file's bytes, whole. */
#define _POSIX_C_SOURCE 200809L

#include "files.h"

#include <errno.h>
#include <fcntl.h>
#include <string.h>

#include "say.h"

bool read_file(const char *name, struct file *file) {
  file->name = name;
  file->length = 0;
  FILE *stream = fopen(name, "rb");
  if (stream == NULL) {
    complain_of_system(name);
    return false;
  }
  file->length = fread(file->bytes, 1, sizeof file->bytes, stream);
  bool good = ferror(stream) == 0;
  if (!good) {
    complain_of_system(name);
  }
  fclose(stream);
  return good;
}

bool read_ground(const char *mesh, const char *table, struct ground *ground) {
  ground->table.name = NULL;
  ground->table.length = 0;
  return read_file(mesh, &ground->mesh) && (table == NULL || read_file(table, &ground->table));
}

bool hold_standard_streams(void) {
  for (int stream = 0; stream <= 2; stream++) {
    /* The lowest number that is free is the one that is opened. */
    if (fcntl(stream, F_GETFD) == -1 && open("/dev/null", O_RDONLY) != stream) {
      return false;
    }
  }
  return true;
}

static const char *done;

void note_done(const char *what) {
  done = what;
}

bool end_output(void) {
  bool lost = ferror(stdout) != 0;
  errno = 0;
  lost = fclose(stdout) != 0 || lost;
  if (lost) {
    char what[256];
    snprintf(what, sizeof what, "%s%s%s", errno != 0 ? strerror(errno) : "not all of it could be written",
             done != NULL ? "; " : "", done != NULL ? done : "");
    complain("standard output", what);
  }
  return !lost;
}
