/* A book in a file, written anew beside the old one and renamed. */
#define _XOPEN_SOURCE 700
#define _DEFAULT_SOURCE /* flock */

#include "book_file.h"

#include <errno.h>
#include <fcntl.h>
#include <libgen.h>
#include <stdlib.h>
#include <string.h>
#include <sys/file.h>
#include <sys/stat.h>
#include <time.h>
#include <unistd.h>

#include "say.h"

/* How often, and after how many nanoseconds each time, a command looks whether another one has written, before it says
   that it waits. */
enum { LOOKS = 250, WAIT = 20 * 1000 * 1000 };

static bool fails(const char *name) {
  complain_of_system(name);
  return false;
}

/* FNV-1a in 64 bits: it notices a mistake, not an intent. */
static uint64_t add_to_sum(uint64_t sum, const struct file *file) {
  for (size_t k = 0; k < file->length; k++) {
    sum = (sum ^ file->bytes[k]) * UINT64_C(0x100000001b3);
  }
  return sum;
}

uint64_t sum_of(const struct ground *ground) {
  return add_to_sum(add_to_sum(UINT64_C(0xcbf29ce484222325), &ground->mesh), &ground->table);
}

/* Whether the text is in the file and the file on its disk. */
static bool is_kept(FILE *stream, const struct kept_book *kept) {
  char text[BOOK_TEXT];
  write_book_text(kept, text);
  return fputs(text, stream) != EOF && fflush(stream) == 0 && fsync(fileno(stream)) == 0;
}

/* A name is on its disk when its folder is. Not every kind of folder can be asked, so this is tried and no more. */
static void keep_name(const char *name) {
  char *copy = strdup(name);
  int folder = copy == NULL ? -1 : open(dirname(copy), O_RDONLY);
  if (folder >= 0) {
    fsync(folder);
    close(folder);
  }
  free(copy);
}

/* A file that isn't there yet. */
static FILE *make_file(const char *name) {
  return fopen(name, "wbx");
}

bool make_book(const char *name) {
  FILE *stream = make_file(name);
  if (stream == NULL) {
    return fails(name);
  }
  const struct kept_book empty = {0};
  bool good = is_kept(stream, &empty) || fails(name);
  fclose(stream);
  if (good) {
    keep_name(name);
  } else {
    unlink(name);
  }
  return good;
}

bool read_book(const char *name, struct kept_book *kept) {
  FILE *stream = fopen(name, "rb");
  if (stream == NULL) {
    return fails(name);
  }
  char text[BOOK_TEXT];
  size_t length = fread(text, 1, sizeof text - 1, stream);
  bool good = ferror(stream) == 0 || fails(name);
  fclose(stream);
  text[length] = '\0';
  int line = good ? read_book_text(text, length, kept) : 0;
  if (line != 0) {
    char what[64];
    snprintf(what, sizeof what, "line %d is not one of a book, as 'pechuvo book' writes it", line);
    complain(name, what);
  }
  return good && line == 0;
}

/* Waits until no other command has the lock of this file. The lock ends with its process, however that ends. */
static bool wait_for_lock(int file, const char *name) {
  const struct timespec wait = {0, WAIT};
  for (int k = 0; k < LOOKS; k++) {
    if (flock(file, LOCK_EX | LOCK_NB) == 0) {
      return true;
    }
    if (errno != EWOULDBLOCK) {
      return false;
    }
    nanosleep(&wait, NULL);
  }
  complain(name, "another command writes this book; waiting for it");
  return flock(file, LOCK_EX) == 0;
}

/* Whether the name is still this file's, and no other was renamed over it. */
static bool has_name(int file, const char *name) {
  struct stat own, named;
  return fstat(file, &own) == 0 && stat(name, &named) == 0 && own.st_dev == named.st_dev &&
         own.st_ino == named.st_ino;
}

/* The book's file, locked; -1 where that fails. Who waited for another command has the lock of a file that is the book
   no more, and waits for the next. */
static int lock_book(const char *name) {
  for (;;) {
    int file = open(name, O_RDWR | O_CLOEXEC); /* over a network the lock asks for a file that may be written */
    file = file < 0 ? open(name, O_RDONLY | O_CLOEXEC) : file;
    if (file < 0 || !wait_for_lock(file, name)) {
      fails(name);
      if (file >= 0) {
        close(file);
      }
      return -1;
    }
    if (has_name(file, name)) {
      return file;
    }
    close(file);
  }
}

bool begin_rewriting(const char *name, struct rewriting *next) {
  static const char ending[] = ".new";
  *next = (struct rewriting){.name = realpath(name, NULL), .lock = -1};
  if (next->name == NULL) {
    return fails(name);
  }
  size_t length = strlen(next->name);
  next->new_name = malloc(length + sizeof ending);
  if (next->new_name == NULL) {
    return fails(name);
  }
  memcpy(next->new_name, next->name, length);
  memcpy(next->new_name + length, ending, sizeof ending);
  next->lock = lock_book(next->name);
  return next->lock >= 0;
}

void give_up_rewriting(struct rewriting *next) {
  if (next->lock >= 0) {
    close(next->lock);
  }
  free(next->name);
  free(next->new_name);
  *next = (struct rewriting){.lock = -1};
}

/* Takes away the new file that a broken-off command left: while this one has the lock no other writes. A file that no
   command can have left stays. */
static bool clear_new_file(const char *name) {
  struct stat left;
  if (lstat(name, &left) != 0) {
    return errno == ENOENT || fails(name);
  }
  if (!S_ISREG(left.st_mode) || left.st_size >= BOOK_TEXT) {
    complain(name, "the new book is written here first, and this is no file that a command left");
    return false;
  }
  return unlink(name) == 0 || fails(name);
}

/* The new file may be read and written by whom the old one may. */
static bool keep_mode(FILE *stream, const char *old_name) {
  struct stat old;
  return stat(old_name, &old) == 0 && fchmod(fileno(stream), old.st_mode & 07777) == 0;
}

/* The new file has the book and then its name, or it is gone. */
static bool write_new_file(const struct rewriting *next, const struct kept_book *kept) {
  FILE *stream = make_file(next->new_name);
  if (stream == NULL) {
    return fails(next->new_name);
  }
  bool good = (is_kept(stream, kept) && keep_mode(stream, next->name)) || fails(next->new_name);
  /* What was to be written is on the disk, so closing can lose nothing. */
  fclose(stream);
  good = good && (rename(next->new_name, next->name) == 0 || fails(next->name));
  if (!good) {
    unlink(next->new_name);
  }
  return good;
}

bool end_rewriting(struct rewriting *next, const struct kept_book *kept) {
  bool good = clear_new_file(next->new_name) && write_new_file(next, kept);
  if (good) {
    keep_name(next->name);
  }
  give_up_rewriting(next);
  return good;
}
