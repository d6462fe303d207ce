/* The C boundary: what a call may read and write, seen by pages that no one may touch.
   boundary SHEET.. uses closed pages; boundary heap SHEET.. exact heap blocks, for valgrind.
   A read or write out of bounds ends the program by a signal, anything else by an exit status. */
#include <stdint.h>
#include <stdio.h>
#include <stdlib.h>
#include <string.h>

#include "into.h"
#include "memory.h"
#include "pechuvo.h"

/* A block as a call's two arguments. */
#define GIVEN(block) (block).bytes, (block).length

enum { LINE = 113, WIDTH = 28, ROOM = 160, RUN = 3 * LINE - 1, LARGEST = 70000, DECIMALS = 6 };

static unsigned long calls;

static void expect(int good, const char *what) {
  calls += 1;
  if (!good) {
    printf("FAILED: %s\n", what);
    exit(1);
  }
}

/* A sheet's file; a sheet without a table has an empty one. */
static struct block read_file(const char *name, const char *ending) {
  static unsigned char bytes[LARGEST];
  char path[512];
  snprintf(path, sizeof path, "%s.%s", name, ending);
  FILE *file = fopen(path, "rb");
  if (file == NULL && strcmp(ending, "table") == 0) {
    return lend(NULL, 0, ON_HEAP);
  }
  if (file == NULL) {
    perror(path);
    exit(2);
  }
  size_t length = fread(bytes, 1, sizeof bytes, file);
  fclose(file);
  return lend(bytes, length, ON_HEAP);
}

/* One call on memory lent in one way; the report buffer has `room` bytes and each is checked:
   the line or nothing in the first 113, `fill` in all others. */
static void call(struct block mesh, struct block table, struct block claim, size_t room, enum lending how,
                 struct pechuvo_answer answer, const unsigned char *line) {
  struct block m = lend(GIVEN(mesh), how), t = lend(GIVEN(table), how);
  struct block c = lend(GIVEN(claim), how);
  unsigned char before[ROOM];
  memset(before, 0xA5, sizeof before);
  struct block report = lend(before, room, how);
  close_for_writing(m);
  close_for_writing(t);
  close_for_writing(c);
  struct pechuvo_answer got =
      pechuvo_check(GIVEN(m), GIVEN(t), GIVEN(c), DECIMALS, GIVEN(report));
  if (room < LINE) {
    expect(got.number == 41 && got.place == 0, "a short buffer gets 41, place 0");
    expect(memcmp(report.bytes, before, room) == 0, "a short buffer stays untouched");
  } else {
    expect(got.number == answer.number && got.place == answer.place, "the answer");
    expect(memcmp(report.bytes, line, LINE) == 0, "the line");
    expect(memcmp(report.bytes + LINE, before, room - LINE) == 0, "bytes beyond 113 are kept");
  }
  expect(mesh.length == 0 || memcmp(m.bytes, mesh.bytes, mesh.length) == 0, "the mesh is kept");
  expect(table.length == 0 || memcmp(t.bytes, table.bytes, table.length) == 0, "the table is kept");
  expect(claim.length == 0 || memcmp(c.bytes, claim.bytes, claim.length) == 0, "the claim is kept");
  give_back(m);
  give_back(t);
  give_back(c);
  give_back(report);
}

/* The same answer and line from memory lent in each of the given ways. */
static void call_each_way(struct block mesh, struct block table, struct block claim, size_t room, int heap) {
  unsigned char line[LINE];
  struct pechuvo_answer answer =
      pechuvo_check(GIVEN(mesh), GIVEN(table), GIVEN(claim), DECIMALS, line, LINE);
  if (heap) {
    call(mesh, table, claim, room, ON_HEAP, answer, line);
    return;
  }
  call(mesh, table, claim, room, AT_END, answer, line);
  call(mesh, table, claim, room, AT_START, answer, line);
}

/* Any other number of decimals than 0 to 7 gets 43, before 41, and no byte is written. */
static void other_decimals(struct block mesh, struct block table, struct block claim, size_t room, enum lending how) {
  const int64_t others[] = {-1, 8, 256, INT64_MIN, INT64_MAX};
  unsigned char before[ROOM];
  memset(before, 0xA5, sizeof before);
  struct block report = lend(before, room, how);
  close_for_writing(report);
  for (size_t k = 0; k < sizeof others / sizeof others[0]; k++) {
    struct pechuvo_answer got = pechuvo_check(GIVEN(mesh), GIVEN(table), GIVEN(claim), others[k], GIVEN(report));
    expect(got.number == 43 && got.place == 0, "other decimals get 43, place 0");
    expect(memcmp(report.bytes, before, room) == 0, "other decimals leave the buffer untouched");
  }
  give_back(report);
}

/* The claim twice in one call, from memory lent in one way: the line of a single call for each, and no
   other byte of a buffer that has room for two. Claims that end a run are left out. */
static void call_run(struct block mesh, struct block table, struct block claim, enum lending how) {
  unsigned char before[RUN], line[LINE];
  memset(before, 0xA5, sizeof before);
  struct pechuvo_answer one =
      pechuvo_check(GIVEN(mesh), GIVEN(table), GIVEN(claim), DECIMALS, line, LINE);
  if (one.number != 0 && (one.number < 21 || one.number > 33)) {
    return;
  }
  struct block twice = lend(NULL, 2 * claim.length, ON_HEAP);
  memcpy(twice.bytes, claim.bytes, claim.length);
  memcpy(twice.bytes + claim.length, claim.bytes, claim.length);
  struct block m = lend(GIVEN(mesh), how), t = lend(GIVEN(table), how);
  struct block c = lend(GIVEN(twice), how);
  struct block reports = lend(before, RUN, how);
  close_for_writing(m);
  close_for_writing(t);
  close_for_writing(c);
  struct pechuvo_run got =
      pechuvo_check_run(GIVEN(m), GIVEN(t), GIVEN(c), GIVEN(reports));
  expect(got.reports == 2 && got.bytes == c.length, "a run of two claims");
  expect(memcmp(reports.bytes, line, LINE) == 0, "the first report of a run");
  expect(memcmp(reports.bytes + LINE, line, LINE) == 0, "the second report of a run");
  expect(memcmp(reports.bytes + 2 * LINE, before, LINE - 1) == 0, "bytes beyond the reports are kept");
  give_back(m);
  give_back(t);
  give_back(c);
  give_back(reports);
  give_back(twice);
}

/* A run on claims that may be cut short anywhere, from memory lent in one way: what comes of it from other memory, and
   in the buffer no byte of another. */
static void call_cut_run(struct block mesh, struct block table, struct block claims, enum lending how) {
  unsigned char before[RUN], written[RUN];
  memset(before, 0xA5, sizeof before);
  memset(written, 0xA5, sizeof written);
  struct pechuvo_run one = pechuvo_check_run(GIVEN(mesh), GIVEN(table), GIVEN(claims), written, RUN);
  struct block m = lend(GIVEN(mesh), how), t = lend(GIVEN(table), how), c = lend(GIVEN(claims), how);
  struct block reports = lend(before, RUN, how);
  close_for_writing(m);
  close_for_writing(t);
  close_for_writing(c);
  struct pechuvo_run got = pechuvo_check_run(GIVEN(m), GIVEN(t), GIVEN(c), GIVEN(reports));
  expect(got.reports == one.reports && got.bytes == one.bytes, "a run on files cut short");
  expect(memcmp(reports.bytes, written, RUN) == 0, "the reports of files cut short");
  expect(memcmp(written + LINE * one.reports, before, RUN - LINE * one.reports) == 0, "bytes beyond them are kept");
  give_back(m);
  give_back(t);
  give_back(c);
  give_back(reports);
}

/* The sizes of a mesh from memory lent in one way, into a place lent so too: the refusal that a check of it gets and no
   sizes, or the sizes told before. */
static void call_sizes(struct block mesh, struct block table, enum lending how) {
  unsigned char line[LINE];
  struct pechuvo_answer one = pechuvo_check(GIVEN(mesh), GIVEN(table), NULL, 0, DECIMALS, line, LINE);
  int passed = one.number == 11;
  struct pechuvo_sizes before = pechuvo_mesh_sizes(GIVEN(mesh), GIVEN(table)), none = {0};
  struct block m = lend(GIVEN(mesh), how), t = lend(GIVEN(table), how);
  close_for_writing(m);
  close_for_writing(t);
  struct block answer = lend(NULL, sizeof before, how);
  struct pechuvo_sizes *got = (struct pechuvo_sizes *)(void *)answer.bytes;
  mesh_sizes_into(got, GIVEN(m), GIVEN(t));
  none.number = one.number;
  none.place = one.place;
  expect(memcmp(got, passed ? &before : &none, sizeof before) == 0, "the sizes");
  expect(got->number == (passed ? 0 : one.number), "the refusal of a mesh");
  expect(mesh.length == 0 || memcmp(m.bytes, mesh.bytes, mesh.length) == 0, "the mesh is kept");
  give_back(answer);
  give_back(m);
  give_back(t);
}

static int same_book(struct pechuvo_book a, struct pechuvo_book b) {
  return a.lower_there == b.lower_there && a.upper_there == b.upper_there &&
         a.lower_numerator == b.lower_numerator && a.lower_denominator == b.lower_denominator &&
         a.upper_numerator == b.upper_numerator && a.upper_denominator == b.upper_denominator &&
         a.count == b.count;
}

/* Asks and commits from memory lent in one way, into a place lent so too: the number and place of a check, an ask and its commit agree, a
   refused claim and 48 hand the very book back. */
static void call_book(struct block mesh, struct block table, struct block claim, enum lending how) {
  unsigned char line[LINE];
  struct pechuvo_answer one = pechuvo_check(GIVEN(mesh), GIVEN(table), GIVEN(claim), DECIMALS, line, LINE);
  struct pechuvo_book before = {7, 0, -5, 3, 11, 0, 999999}, full = before, broken = before;
  full.count = 1000000;
  broken.lower_denominator = 0;
  struct block m = lend(GIVEN(mesh), how), t = lend(GIVEN(table), how), c = lend(GIVEN(claim), how);
  close_for_writing(m);
  close_for_writing(t);
  close_for_writing(c);
  struct block answer = lend(NULL, sizeof(struct pechuvo_book_answer), how);
  struct pechuvo_book_answer *place = (struct pechuvo_book_answer *)(void *)answer.bytes;
  book_ask_into(place, before, GIVEN(m), GIVEN(t), GIVEN(c));
  struct pechuvo_book_answer asked = *place;
  book_commit_into(place, before, before.count, GIVEN(m), GIVEN(t), GIVEN(c));
  struct pechuvo_book_answer got = *place;
  expect(asked.number == one.number && asked.place == one.place, "the number and place of an ask");
  expect(got.number == asked.number && got.place == asked.place, "an ask and its commit agree");
  expect(same_book(got.book, asked.book), "an ask and its commit tell one book");
  expect(got.number != 0 || got.book.count == before.count + 1, "an accepted claim counts");
  expect(got.number == 0 || same_book(got.book, before), "a refused claim leaves the book");
  got = pechuvo_book_commit(before, before.count + 1, GIVEN(m), GIVEN(t), GIVEN(c));
  expect(got.number == 48 && got.place == 0 && same_book(got.book, before), "another count gets 48");
  got = pechuvo_book_ask(full, GIVEN(m), GIVEN(t), GIVEN(c));
  expect(got.number == 48 && got.place == 0 && same_book(got.book, full), "a full book gets 48");
  got = pechuvo_book_ask(broken, GIVEN(m), GIVEN(t), GIVEN(c));
  expect(got.number == 48 && got.place == 0 && same_book(got.book, broken), "a bound over 0 gets 48");
  give_back(answer);
  give_back(m);
  give_back(t);
  give_back(c);
}

/* A claim that passes 11, 12 and 13 has the length that is said for its parts. */
static void claim_length(struct block mesh, struct block table, struct block claim) {
  struct pechuvo_sizes sizes = pechuvo_mesh_sizes(GIVEN(mesh), GIVEN(table));
  int field = claim.bytes[11] == '1', multipliers = claim.bytes[23] == '1';
  uint64_t said = field && multipliers ? sizes.both_bytes
                  : field              ? sizes.field_bytes
                                       : sizes.multipliers_bytes;
  expect(claim.length == said, "the length of the claim");
}

/* Every call that takes files. */
static void call_all(struct block mesh, struct block table, struct block claim, int heap) {
  enum lending how = heap ? ON_HEAP : AT_END;
  call_each_way(mesh, table, claim, LINE, heap);
  call_cut_run(mesh, table, claim, how);
  call_sizes(mesh, table, how);
  call_book(mesh, table, claim, how);
}

/* The files cut short at every `step`th byte, and a run of two claims: nothing behind the cut is read. */
static void cut_files(struct block mesh, struct block table, struct block claim, size_t step, int heap) {
  struct block part = mesh, twice = lend(NULL, 2 * claim.length, ON_HEAP);
  for (part.length = 0; part.length < mesh.length; part.length += step) {
    call_all(part, table, claim, heap);
  }
  part = table;
  for (part.length = 0; part.length < table.length; part.length += step) {
    call_all(mesh, part, claim, heap);
  }
  part = claim;
  for (part.length = 0; part.length < claim.length; part.length += step) {
    call_all(mesh, table, part, heap);
  }
  memcpy(twice.bytes, claim.bytes, claim.length);
  memcpy(twice.bytes + claim.length, claim.bytes, claim.length);
  part = twice;
  for (part.length = claim.length; part.length <= twice.length; part.length += step) {
    call_cut_run(mesh, table, part, heap ? ON_HEAP : AT_END);
  }
  give_back(twice);
}

/* A length of 0 goes with any pointer. */
static void empty_slices(struct block mesh, struct block table, struct block claim) {
  struct block closed = lend(NULL, 0, AT_END);
  unsigned char *pointers[] = {NULL, (unsigned char *)1, closed.bytes, mesh.bytes};
  for (size_t k = 0; k < sizeof pointers / sizeof pointers[0]; k++) {
    unsigned char *any = pointers[k];
    unsigned char line[LINE];
    struct pechuvo_answer got = pechuvo_check(any, 0, GIVEN(table), GIVEN(claim), DECIMALS, line, LINE);
    expect(got.number == 1 && got.place == 1, "an empty mesh gets 1, line 1");
    got = pechuvo_check(GIVEN(mesh), GIVEN(table), any, 0, DECIMALS, line, LINE);
    expect(got.number == 11 && got.place == 1, "an empty claim gets 11, line 1");
    struct pechuvo_answer bare = pechuvo_check(GIVEN(mesh), NULL, 0, GIVEN(claim), DECIMALS, line, LINE);
    got = pechuvo_check(GIVEN(mesh), any, 0, GIVEN(claim), DECIMALS, line, LINE);
    expect(got.number == bare.number && got.place == bare.place, "an empty table is none");
    got = pechuvo_check(GIVEN(mesh), GIVEN(table), GIVEN(claim), DECIMALS, any, 0);
    expect(got.number == 41 && got.place == 0, "an empty buffer gets 41, place 0");
    struct pechuvo_run run = pechuvo_check_run(any, 0, GIVEN(table), GIVEN(claim), line, LINE);
    expect(run.reports == 1 && run.bytes == 0, "a run on an empty mesh has one report");
    run = pechuvo_check_run(GIVEN(mesh), GIVEN(table), any, 0, line, LINE);
    expect(run.reports == 0 && run.bytes == 0, "a run of no claim has no report");
    run = pechuvo_check_run(GIVEN(mesh), GIVEN(table), GIVEN(claim), any, 0);
    expect(run.reports == 0 && run.bytes == 0, "a run into an empty buffer has no report");
    struct pechuvo_sizes sizes = pechuvo_mesh_sizes(any, 0, GIVEN(table));
    expect(sizes.number == 1 && sizes.place == 1, "the sizes of an empty mesh get 1, line 1");
    struct pechuvo_book empty = {0};
    struct pechuvo_book_answer told = pechuvo_book_ask(empty, any, 0, GIVEN(table), GIVEN(claim));
    expect(told.number == 1 && told.place == 1, "a book on an empty mesh gets 1, line 1");
    int64_t *list = (int64_t *)(void *)any;
    struct pechuvo_numbers numbers = pechuvo_check_numbers(list, 0, list, 0, list, 0);
    expect(numbers.number == 1 && numbers.place == 1, "an empty list gets 1, line 1");
  }
  give_back(closed);
}

/* The struct that the next strength comes back in, and numbers handed over in their order. */
static void next_strengths(void) {
  struct pechuvo_next got = pechuvo_next_strength(1.5, 2.0, 1.0, 0.5);
  expect(got.number == 0 && got.place == 0 && got.strength == 4.0 / 3.0, "the next strength");
  got = pechuvo_next_strength(4.0, 3.0, 1.0, 2.0);
  expect(got.number == 49 && got.place == 0 && got.strength == 0.0, "a result below 0 gets 49");
  got = pechuvo_next_strength(1.5, 2.0, 1.0, 2.0);
  expect(got.number == 49 && got.place == 0 && got.strength == 0.0, "equal loads get 49");
}

/* The numbers of a well-formed file, in order. */
static struct block numbers_of(struct block file) {
  struct block list = lend(NULL, file.length / 12 * sizeof(int64_t), ON_HEAP);
  int64_t *numbers = (int64_t *)(void *)list.bytes;
  size_t count = 0;
  for (size_t at = 0; at + 12 < file.length; at += file.bytes[at + 12] == '\n' ? 13 : 12) {
    char column[13] = {0};
    memcpy(column, file.bytes + at, 12);
    numbers[count++] = strtoll(column, NULL, 10);
  }
  list.length = count * sizeof(int64_t);
  return list;
}

/* A block of numbers as a call's two arguments. */
#define LIST(block) (const int64_t *)(void *)(block).bytes, (block).length / sizeof(int64_t)

static struct pechuvo_numbers check_lists(struct block mesh, struct block table, struct block claim) {
  return pechuvo_check_numbers(LIST(mesh), LIST(table), LIST(claim));
}

static int same(struct pechuvo_numbers a, struct pechuvo_numbers b) {
  return a.number == b.number && a.place == b.place && a.field == b.field &&
         a.multipliers == b.multipliers && a.l == b.l && a.n == b.n && a.w == b.w && a.m == b.m &&
         a.open_rows == b.open_rows;
}

/* Three lists, each cut after `length` of its numbers, from memory lent in one way, into a place lent so too. */
static void call_lists(struct block mesh, struct block table, struct block claim, enum lending how) {
  struct block m = lend(GIVEN(mesh), how), t = lend(GIVEN(table), how);
  struct block c = lend(GIVEN(claim), how);
  close_for_writing(m);
  close_for_writing(t);
  close_for_writing(c);
  struct block answer = lend(NULL, sizeof(struct pechuvo_numbers), how);
  struct pechuvo_numbers *place = (struct pechuvo_numbers *)(void *)answer.bytes;
  check_numbers_into(place, LIST(m), LIST(t), LIST(c));
  expect(same(*place, check_lists(mesh, table, claim)), "the answer on numbers");
  give_back(answer);
  give_back(m);
  give_back(t);
  give_back(c);
}

static void call_lists_each_way(struct block mesh, struct block table, struct block claim, int heap) {
  call_lists(mesh, table, claim, heap ? ON_HEAP : AT_END);
  if (!heap) {
    call_lists(mesh, table, claim, AT_START);
  }
}

static void lists(struct block mesh_file, struct block table_file, struct block claim_file, size_t step, int heap) {
  struct block mesh = numbers_of(mesh_file), table = numbers_of(table_file), claim = numbers_of(claim_file);
  struct block part = mesh;
  for (part.length = 0; part.length <= mesh.length; part.length += step * sizeof(int64_t)) {
    call_lists_each_way(part, table, claim, heap);
  }
  part = table;
  for (part.length = 0; part.length <= table.length; part.length += sizeof(int64_t)) {
    call_lists_each_way(mesh, part, claim, heap);
  }
  part = claim;
  for (part.length = 0; part.length <= claim.length; part.length += step * sizeof(int64_t)) {
    call_lists_each_way(mesh, table, part, heap);
  }
  call_lists_each_way(mesh, table, claim, heap);
  give_back(mesh);
  give_back(table);
  give_back(claim);
}

/* Report, numbers and book tell a carried load of the same accepted claims: of none without a field, or on a mesh that
   lists a soil of kind 1. */
static void told_alike(struct block mesh_file, struct block table_file, struct block claim_file) {
  unsigned char line[LINE];
  struct pechuvo_book empty = {0};
  struct pechuvo_answer one =
      pechuvo_check(GIVEN(mesh_file), GIVEN(table_file), GIVEN(claim_file), DECIMALS, line, LINE);
  if (one.number != 0) {
    return;
  }
  int untold = memcmp(line + 3 * WIDTH - 4, "none", 4) == 0;
  struct block mesh = numbers_of(mesh_file), table = numbers_of(table_file), claim = numbers_of(claim_file);
  struct pechuvo_numbers numbers = check_lists(mesh, table, claim);
  struct pechuvo_book book = pechuvo_book_ask(empty, GIVEN(mesh_file), GIVEN(table_file), GIVEN(claim_file)).book;
  expect(numbers.field == (claim_file.bytes[11] == '1'), "the field of an accepted claim");
  expect((numbers.n == 0) == untold, "numbers tell a carried load where the report does");
  expect((book.lower_there == 0) == untold, "a book takes a carried load where the report tells one");
  expect(!untold || (numbers.l == 0 && book.lower_denominator == 0), "zeros for what is not told");
  give_back(mesh);
  give_back(table);
  give_back(claim);
}

static void sheet(const char *name, int heap) {
  struct block mesh = read_file(name, "mesh"), table = read_file(name, "table"), claim = read_file(name, "claim");
  size_t bytes = mesh.length + claim.length;
  size_t step = heap ? bytes / 10 + 1 : bytes / 2000 + 1;
  for (size_t room = 0; room <= 120; room += heap ? 8 : 1) {
    call_each_way(mesh, table, claim, room, heap);
  }
  call_each_way(mesh, table, claim, LINE, heap);
  other_decimals(mesh, table, claim, LINE, heap ? ON_HEAP : AT_END);
  other_decimals(mesh, table, claim, LINE - 1, heap ? ON_HEAP : AT_START);
  call_run(mesh, table, claim, heap ? ON_HEAP : AT_END);
  call_run(mesh, table, claim, heap ? ON_HEAP : AT_START);
  call_sizes(mesh, table, heap ? ON_HEAP : AT_END);
  call_sizes(mesh, table, heap ? ON_HEAP : AT_START);
  call_book(mesh, table, claim, heap ? ON_HEAP : AT_END);
  call_book(mesh, table, claim, heap ? ON_HEAP : AT_START);
  claim_length(mesh, table, claim);
  told_alike(mesh, table, claim);
  cut_files(mesh, table, claim, step, heap);
  lists(mesh, table, claim, step / 8 + 1, heap);
  empty_slices(mesh, table, claim);
  give_back(mesh);
  give_back(table);
  give_back(claim);
}

int main(int count, char **words) {
  int heap = count > 1 && strcmp(words[1], "heap") == 0;
  for (int k = 1 + heap; k < count; k++) {
    sheet(words[k], heap);
  }
  next_strengths();
  printf("%d sheets, %lu facts checked\n", count - 1 - heap, calls);
  return calls > 0 ? 0 : 1;
}
