/* libFuzzer harness: the archive against the independent implementation, every entry of both.
   An input is a mesh file, a claim file, or several claims one after another, a table, and the rest of what the calls
   take (rest.h), with a byte 0 between. */
#include <stdio.h>
#include <stdlib.h>
#include <string.h>

#include "entries.h"
#include "memory.h"
#include "mutate.h"
#include "rest.h"

enum { COLUMN = 12, MOST = 8192 };

struct file {
  const uint8_t *bytes;
  size_t length;
};

/* The numbers of a file. */
struct list {
  int64_t numbers[MOST];
  size_t length;
};

/* The files of one input, and the rest of what the calls take. */
struct input {
  struct file mesh, table, claim;
  struct rest rest;
};

/* A file, a block or a list as a call's two arguments. */
#define GIVEN(file) (file).bytes, (file).length
#define NUMBERS(list) (list).numbers, (list).length
#define LIST(block) (const int64_t *)(void *)(block).bytes, (block).length / sizeof(int64_t)

static void must(int good, const char *what) {
  if (!good) {
    fprintf(stderr, "DISAGREEMENT: %s\n", what);
    abort();
  }
}

/* What is lent to the archive. It has no counters and no sanitizer of its own, so each block ends, or begins, at a
   closed page: a byte read or written outside is a crash. */
struct lent {
  struct block mesh, table, claim;
  enum lending how;
};

static struct lent lend_files(const struct input *in) {
  enum lending how = (in->mesh.length + in->claim.length) % 2 ? AT_START : AT_END;
  struct lent all = {lend(GIVEN(in->mesh), how), lend(GIVEN(in->table), how), lend(GIVEN(in->claim), how), how};
  close_for_writing(all.mesh);
  close_for_writing(all.table);
  close_for_writing(all.claim);
  return all;
}

static void give_back_all(struct lent all) {
  give_back(all.mesh);
  give_back(all.table);
  give_back(all.claim);
}

/* The place of an answer has the answer of the other make, and is given back. */
static void must_be(struct block answer, const void *other, const char *what) {
  must(memcmp(answer.bytes, other, answer.length) == 0, what);
  give_back(answer);
}

static void compare_files(const struct input *in, struct lent on, int64_t decimals, size_t room) {
  uint8_t report[ROOM];
  memset(report, 0xA5, sizeof report);
  struct block lent = lend(report, room, on.how);
  struct pechuvo_answer a = pechuvo_check(GIVEN(on.mesh), GIVEN(on.table), GIVEN(on.claim), decimals, GIVEN(lent));
  struct pechuvo_answer b =
      independent_check(GIVEN(in->mesh), GIVEN(in->table), GIVEN(in->claim), decimals, report, room);
  must(a.number == b.number && a.place == b.place, "the answer");
  must_be(lent, report, "the buffer");
}

static void compare_run(const struct input *in, struct lent on, size_t room) {
  uint8_t reports[ROOM];
  memset(reports, 0xA5, sizeof reports);
  struct block lent = lend(reports, room, on.how);
  struct pechuvo_run a = pechuvo_check_run(GIVEN(on.mesh), GIVEN(on.table), GIVEN(on.claim), GIVEN(lent));
  struct pechuvo_run b = independent_check_run(GIVEN(in->mesh), GIVEN(in->table), GIVEN(in->claim), reports, room);
  must(a.reports == b.reports && a.bytes == b.bytes, "the run");
  must_be(lent, reports, "the reports");
}

static void compare_sizes(const struct input *in, struct lent on) {
  struct block lent = lend(NULL, sizeof(struct pechuvo_sizes), on.how);
  mesh_sizes_into((struct pechuvo_sizes *)(void *)lent.bytes, GIVEN(on.mesh), GIVEN(on.table));
  struct pechuvo_sizes b = independent_mesh_sizes(GIVEN(in->mesh), GIVEN(in->table));
  must_be(lent, &b, "the sizes");
}

/* An ask, a commit, and a commit on the book that comes of it. */
static void compare_books(const struct input *in, struct lent on) {
  struct pechuvo_book book = in->rest.book;
  struct block lent = lend(NULL, sizeof(struct pechuvo_book_answer), on.how);
  struct pechuvo_book_answer *place = (struct pechuvo_book_answer *)(void *)lent.bytes;
  book_ask_into(place, book, GIVEN(on.mesh), GIVEN(on.table), GIVEN(on.claim));
  struct pechuvo_book_answer b = independent_book_ask(book, GIVEN(in->mesh), GIVEN(in->table), GIVEN(in->claim));
  must(memcmp(place, &b, sizeof b) == 0, "the book that is asked");
  uint64_t count = in->rest.named;
  for (int k = 0; k < 2; k++) {
    book_commit_into(place, book, count, GIVEN(on.mesh), GIVEN(on.table), GIVEN(on.claim));
    b = independent_book_commit(book, count, GIVEN(in->mesh), GIVEN(in->table), GIVEN(in->claim));
    must(memcmp(place, &b, sizeof b) == 0, "the book after a commit");
    book = b.book;
    count = book.count;
  }
  give_back(lent);
}

static void compare_strengths(const struct rest *rest) {
  struct pechuvo_next a = pechuvo_next_strength(rest->k1, rest->l1, rest->k2, rest->l2);
  struct pechuvo_next b = independent_next_strength(rest->k1, rest->l1, rest->k2, rest->l2);
  must(memcmp(&a, &b, sizeof a) == 0, "the next strength");
}

/* The numbers of a file as far as its columns go; what is no number counts as strtoll says. */
static void take_numbers(struct list *list, struct file file) {
  size_t at = 0;
  list->length = 0;
  while (at + COLUMN <= file.length && list->length < MOST) {
    char column[COLUMN + 1] = {0};
    memcpy(column, file.bytes + at, COLUMN);
    list->numbers[list->length++] = strtoll(column, NULL, 10);
    at += COLUMN;
    at += at < file.length && file.bytes[at] == '\n';
  }
}

/* The number at a place of the lists one after another becomes another one, that no column may hold. */
static void put_number(struct list *lists, size_t count, uint64_t place, int64_t number) {
  for (size_t k = 0; k < count; k++) {
    if (place < lists[k].length) {
      lists[k].numbers[place] = number;
      return;
    }
    place -= lists[k].length;
  }
}

static void compare_numbers(const struct input *in, enum lending how) {
  static struct list of[3];
  struct block on[3];
  take_numbers(&of[0], in->mesh);
  take_numbers(&of[1], in->table);
  take_numbers(&of[2], in->claim);
  put_number(of, 3, in->rest.place, in->rest.number);
  for (size_t k = 0; k < 3; k++) {
    on[k] = lend(of[k].numbers, of[k].length * sizeof of[k].numbers[0], how);
    close_for_writing(on[k]);
  }
  struct block lent = lend(NULL, sizeof(struct pechuvo_numbers), how);
  check_numbers_into((struct pechuvo_numbers *)(void *)lent.bytes, LIST(on[0]), LIST(on[1]), LIST(on[2]));
  for (size_t k = 0; k < 3; k++) {
    give_back(on[k]);
  }
  struct pechuvo_numbers b = independent_check_numbers(NUMBERS(of[0]), NUMBERS(of[1]), NUMBERS(of[2]));
  must_be(lent, &b, "the answer on numbers");
}

/* The next file of what is left, up to a byte 0. */
static struct file next_file(struct file *left) {
  size_t length = part_length(left->bytes, left->length);
  struct file file = {left->bytes, length};
  size_t taken = length + (length < left->length);
  left->bytes += taken;
  left->length -= taken;
  return file;
}

static struct input cut(const uint8_t *data, size_t size) {
  struct file left = {data, size};
  struct input in;
  in.mesh = next_file(&left);
  in.claim = next_file(&left);
  in.table = next_file(&left);
  in.rest = usual;
  if (left.length > 0) {
    memcpy(&in.rest, left.bytes, left.length < sizeof in.rest ? left.length : sizeof in.rest);
  }
  return in;
}

int LLVMFuzzerTestOneInput(const uint8_t *data, size_t size) {
  struct input in = cut(data, size);
  struct lent on = lend_files(&in);
  size_t room = in.rest.room % (ROOM + 1);
  compare_files(&in, on, in.rest.decimals, room);
  compare_run(&in, on, room);
  compare_sizes(&in, on);
  compare_books(&in, on);
  compare_strengths(&in.rest);
  give_back_all(on);
  compare_numbers(&in, on.how);
  return 0;
}
