/* How much of the stack each call uses: stack MOST SHEET.., where a sheet is the name of its files without their
   endings. Prints bytes, a line a sheet and the most of each call; status 1 where a call uses more than MOST bytes.

   The calls are made in a thread whose stack is painted below the frame that makes them; afterwards the lowest byte
   that isn't the paint any more tells how deep they went. Each is made over two paints, since a call may write what
   one of them has. */
#define _GNU_SOURCE
#include <pthread.h>
#include <stdio.h>
#include <stdlib.h>
#include <string.h>
#include <sys/mman.h>

#include "pechuvo.h"

#define MOST_BYTES 65536
#define STACK_BYTES (1 << 20)

/* Room for the frames of what is painting and calling. */
#define OWN_FRAMES 1024

enum { CHECK, CHECK_RUN, CHECK_NUMBERS, MESH_SIZES, BOOK_ASK, BOOK_COMMIT, NEXT_STRENGTH, CALLS };

static const char *const names[CALLS] = {"check", "check_run", "check_numbers", "mesh_sizes",
                                         "book_ask", "book_commit", "next_strength"};

struct file {
  uint8_t bytes[MOST_BYTES];
  size_t length;
  int64_t numbers[MOST_BYTES / 2];
  size_t count;
};

static struct file mesh, table, claim;
static uint8_t report[PECHUVO_REPORT];
static unsigned char *stack;

/* The numbers of a file, as far as they can be read. */
static void take_numbers(struct file *file) {
  static char text[MOST_BYTES + 1];
  memcpy(text, file->bytes, file->length);
  text[file->length] = 0;
  file->count = 0;
  for (char *at = text, *end = text;; at = end) {
    int64_t number = strtoll(at, &end, 10);
    if (end == at) {
      return;
    }
    file->numbers[file->count++] = number;
  }
}

/* A file that isn't there is empty. */
static void take(struct file *file, const char *sheet, const char *ending) {
  char name[4096];
  snprintf(name, sizeof name, "%s%s", sheet, ending);
  FILE *from = fopen(name, "rb");
  file->length = from == NULL ? 0 : fread(file->bytes, 1, MOST_BYTES, from);
  if (from != NULL) {
    fclose(from);
  }
  take_numbers(file);
}

#define OF(file) (file).bytes, (file).length
#define NUMBERS_OF(file) (file).numbers, (file).count

static void make(int call) {
  const struct pechuvo_book empty = {0};
  switch (call) {
  case CHECK:
    pechuvo_check(OF(mesh), OF(table), OF(claim), PECHUVO_MOST_DECIMALS, report, sizeof report);
    break;
  case CHECK_RUN:
    pechuvo_check_run(OF(mesh), OF(table), OF(claim), report, sizeof report);
    break;
  case CHECK_NUMBERS:
    pechuvo_check_numbers(NUMBERS_OF(mesh), NUMBERS_OF(table), NUMBERS_OF(claim));
    break;
  case MESH_SIZES:
    pechuvo_mesh_sizes(OF(mesh), OF(table));
    break;
  case BOOK_ASK:
    pechuvo_book_ask(empty, OF(mesh), OF(table), OF(claim));
    break;
  case BOOK_COMMIT:
    pechuvo_book_commit(empty, 0, OF(mesh), OF(table), OF(claim));
    break;
  default:
    pechuvo_next_strength(2.0, 0.5, 0.5, 3.0);
  }
}

/* How far below the frame that makes the call something was written, over one paint. */
static __attribute__((noinline)) size_t depth_over(int call, unsigned char paint) {
  unsigned char here;
  unsigned char *painted = &here - OWN_FRAMES;
  memset(stack, paint, (size_t)(painted - stack));
  make(call);
  unsigned char *low = stack;
  while (low < painted && *low == paint) {
    low++;
  }
  return low == painted ? 0 : (size_t)(&here - low);
}

static size_t depth(int call) {
  size_t one = depth_over(call, 0xA5), other = depth_over(call, 0x5A);
  return one > other ? one : other;
}

struct task {
  int sheets;
  char **names;
  size_t most;
};

static void *measure(void *given) {
  struct task *task = given;
  size_t most[CALLS] = {0};
  for (int k = 0; k < task->sheets; k++) {
    take(&mesh, task->names[k], ".mesh");
    take(&table, task->names[k], ".table");
    take(&claim, task->names[k], ".claim");
    printf("%s:", task->names[k]);
    for (int call = 0; call < CALLS; call++) {
      size_t used = depth(call);
      printf(" %s %zu%s", names[call], used, call + 1 < CALLS ? "," : "\n");
      most[call] = used > most[call] ? used : most[call];
    }
  }
  printf("the most:");
  for (int call = 0; call < CALLS; call++) {
    printf(" %s %zu%s", names[call], most[call], call + 1 < CALLS ? "," : "\n");
    task->most = most[call] > task->most ? most[call] : task->most;
  }
  return NULL;
}

int main(int count, char **words) {
  if (count < 3) {
    fprintf(stderr, "usage: %s MOST SHEET..\n", words[0]);
    return 2;
  }
  struct task task = {count - 2, words + 2, 0};
  pthread_attr_t room;
  pthread_t thread;
  stack = mmap(NULL, STACK_BYTES, PROT_READ | PROT_WRITE, MAP_PRIVATE | MAP_ANONYMOUS, -1, 0);
  if (stack == MAP_FAILED || pthread_attr_init(&room) != 0 || pthread_attr_setstack(&room, stack, STACK_BYTES) != 0 ||
      pthread_create(&thread, &room, measure, &task) != 0 || pthread_join(thread, NULL) != 0) {
    fprintf(stderr, "%s: no thread\n", words[0]);
    return 2;
  }
  return task.most > strtoull(words[1], NULL, 10);
}
