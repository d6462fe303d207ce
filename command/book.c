/* pechuvo book FILE ..: a book of the best bracket of the claims for one mesh, kept in a file. */
#include <inttypes.h>
#include <stdio.h>
#include <stdlib.h>
#include <string.h>

#include "answers.h"
#include "book_file.h"
#include "commands.h"
#include "decimal.h"
#include "files.h"
#include "json.h"
#include "pechuvo.h"
#include "say.h"
#include "whole.h"

/* What is asked of a book, and what is answered. */
struct session {
  const char *name;
  bool commits; /* else asks */
  bool json;
  const char *count; /* that the ask saw; NULL where the book's own is meant */
  const struct ground *ground; /* NULL where no claim is judged */
  int claims;
  char **claim;
  struct pechuvo_answer *answers; /* one for each claim */
};

static void put_json_claims(const struct session *session) {
  fputs(", \"claims\": [", stdout);
  for (int k = 0; k < session->claims; k++) {
    fputs(k == 0 ? "{\"claim\": " : ", {\"claim\": ", stdout);
    put_json_name(session->claim[k]);
    fputs(", ", stdout);
    put_json_answer(session->answers[k], says_of(session->ground, session->answers[k]));
    putchar('}');
  }
  putchar(']');
}

/* A bound as the book's file has it, and with decimals. */
struct told_bound {
  char text[BOUND_TEXT];
  char decimals[DECIMAL_TEXT]; /* none where there is no bound, or where it has no value */
};

static struct told_bound lower_of(const struct pechuvo_book *book) {
  struct told_bound told;
  lower_text(book, told.text);
  decimal_text(book->lower_numerator, book->lower_there != 0 ? book->lower_denominator : 0, ROUNDED_DOWN,
               told.decimals);
  return told;
}

static struct told_bound upper_of(const struct pechuvo_book *book) {
  struct told_bound told;
  upper_text(book, told.text);
  decimal_text(book->upper_numerator, book->upper_there != 0 ? book->upper_denominator : 0, ROUNDED_UP,
               told.decimals);
  return told;
}

static void put_bound(const char *name, uint32_t there, const struct told_bound *bound) {
  printf("%s %s%s%s\n", name, bound->text, there != 0 ? " " : "", there != 0 ? bound->decimals : "");
}

/* The book that is told, as its file has it but for the mesh, with decimals. */
static void put_book(const struct session *session, const struct pechuvo_book *book) {
  struct told_bound lower = lower_of(book), upper = upper_of(book);
  if (!session->json) {
    put_bound("lower", book->lower_there, &lower);
    put_bound("upper", book->upper_there, &upper);
    printf("count %" PRIu64 "\n", book->count);
    return;
  }
  fputs("{\"book\": ", stdout);
  put_json_name(session->name);
  put_json_text("lower", lower.text, "\"");
  put_json_text("lower_decimal", lower.decimals, "\"");
  put_json_text("upper", upper.text, "\"");
  put_json_text("upper_decimal", upper.decimals, "\"");
  printf(", \"count\": %" PRIu64, book->count);
  if (session->claims > 0) {
    put_json_claims(session);
  }
  fputs("}\n", stdout);
}

static int show(const struct session *session) {
  struct kept_book kept;
  if (!read_book(session->name, &kept)) {
    return FAILED;
  }
  put_book(session, &kept.book);
  return ACCEPTED;
}

static int make(const struct session *session) {
  if (!make_book(session->name)) {
    return FAILED;
  }
  note_done("the book is written");
  return show(session);
}

/* Whether the claims are for the mesh of the book; an empty one is for any. */
static bool is_same_mesh(const struct session *session, const struct kept_book *kept) {
  bool same = !kept->mesh_there || kept->mesh == sum_of(session->ground);
  if (!same) {
    complain(session->name, "this book is for another mesh, or for another table with it");
  }
  return same;
}

/* One claim after another, each on the book that the last one left; false where one can't be read. */
static bool judge_claims(const struct session *session, uint64_t count, struct pechuvo_book *told) {
  static struct file claim;
  const struct ground *ground = session->ground;
  for (int k = 0; k < session->claims; k++) {
    if (!read_file(session->claim[k], &claim)) {
      return false;
    }
    struct pechuvo_book_answer answer =
        session->commits ? pechuvo_book_commit(*told, k == 0 ? count : told->count, GIVEN(ground->mesh),
                                               GIVEN(ground->table), GIVEN(claim))
                         : pechuvo_book_ask(*told, GIVEN(ground->mesh), GIVEN(ground->table), GIVEN(claim));
    *told = answer.book;
    session->answers[k] = (struct pechuvo_answer){answer.number, answer.place};
  }
  return true;
}

/* The book that is told and each refusal; the worst of the claims' statuses. */
static int tell(const struct session *session, const struct pechuvo_book *told) {
  int status = ACCEPTED;
  put_book(session, told);
  for (int k = 0; k < session->claims; k++) {
    struct pechuvo_answer answer = session->answers[k];
    status = worse(status, status_of(answer));
    if (session->json || answer.number == PECHUVO_ACCEPTED) {
      continue;
    }
    if (answer.number == PECHUVO_BOOK_TAKES_NONE) {
      tell_book_refusal(session->name, answer);
    } else {
      tell_refusal(session->ground, session->claim[k], 0, answer);
    }
  }
  return status;
}

static int ask(const struct session *session) {
  struct kept_book kept;
  if (!read_book(session->name, &kept) || !is_same_mesh(session, &kept) || !judge_claims(session, 0, &kept.book)) {
    return FAILED;
  }
  return tell(session, &kept.book);
}

/* The count that is named: the given one, else the one that the book has. */
static bool named_count(const struct session *session, const struct kept_book *kept, uint64_t *count) {
  *count = kept->book.count;
  if (session->count == NULL || read_unsigned(session->count, count)) {
    return true;
  }
  complain(session->count, "--count asks for a whole number that is not below 0");
  return false;
}

/* The book is read while no other command may write it, so the count that it has is the count that is named. */
static bool commit_claims(const struct session *session, struct kept_book *kept) {
  struct rewriting next;
  uint64_t count;
  if (!begin_rewriting(session->name, &next) || !read_book(next.name, kept) ||
      !is_same_mesh(session, kept) || !named_count(session, kept, &count) ||
      !judge_claims(session, count, &kept->book)) {
    give_up_rewriting(&next);
    return false;
  }
  bool accepted = false;
  for (int k = 0; k < session->claims; k++) {
    accepted = accepted || session->answers[k].number == PECHUVO_ACCEPTED;
  }
  if (!accepted) {
    give_up_rewriting(&next);
    return true;
  }
  kept->mesh_there = true;
  kept->mesh = sum_of(session->ground);
  if (!end_rewriting(&next, kept)) {
    return false;
  }
  note_done("the book is written");
  return true;
}

static int commit(const struct session *session) {
  struct kept_book kept;
  return commit_claims(session, &kept) ? tell(session, &kept.book) : FAILED;
}

static int take_claims(struct session *session, const struct arguments *given) {
  static struct ground ground;
  session->claims = given->operands - 3;
  session->claim = given->operand + 3;
  session->answers = calloc((size_t)session->claims, sizeof *session->answers);
  if (session->answers == NULL) {
    return complain_of_system(session->name);
  }
  int status = FAILED;
  session->ground = &ground;
  if (read_ground(given->operand[2], given->table, &ground)) {
    status = session->commits ? commit(session) : ask(session);
  }
  free(session->answers);
  return status;
}

int book(const struct arguments *given) {
  const char *action = given->operand[1];
  struct session session = {.name = given->operand[0], .json = given->json, .count = given->count};
  session.commits = strcmp(action, "commit") == 0;
  bool makes = strcmp(action, "new") == 0, shows = strcmp(action, "show") == 0;
  if (makes || shows) {
    bool alone = given->operands == 2 && given->table == NULL && given->count == NULL;
    if (!alone) {
      return complain(action, "nothing but the book's file goes with it");
    }
    return makes ? make(&session) : show(&session);
  }
  if (!session.commits && strcmp(action, "ask") != 0) {
    return complain(action, "a book can be told new, show, ask and commit");
  }
  if (given->operands < 4) {
    return complain(action, "a mesh and a claim are missing");
  }
  if (given->count != NULL && (!session.commits || given->operands > 4)) {
    return complain("--count", "it goes with a commit of one claim");
  }
  return take_claims(&session, given);
}
