/* pechuvo check MESH CLAIM..: a report line for each claim. */
#include <stdio.h>

#include "answers.h"
#include "commands.h"
#include "json.h"
#include "pechuvo.h"
#include "say.h"
#include "whole.h"

struct asked {
  int64_t decimals;
  bool json;
  bool several; /* each line has its claim's name */
};

/* The archive says whether it takes so many, before all else and so without any file. */
static bool are_taken(int64_t decimals) {
  uint8_t report[PECHUVO_REPORT];
  return pechuvo_check(NULL, 0, NULL, 0, NULL, 0, decimals, report, sizeof report).number != PECHUVO_WRONG_DECIMALS;
}

static bool read_decimals(const struct arguments *given, int64_t *decimals) {
  *decimals = PECHUVO_USUAL_DECIMALS;
  if (given->decimals == NULL) {
    return true;
  }
  if (!read_signed(given->decimals, decimals)) {
    complain(given->decimals, "--decimals asks for a whole number");
    return false;
  }
  if (!are_taken(*decimals)) {
    complain("--decimals", words_of(PECHUVO_WRONG_DECIMALS));
    return false;
  }
  return true;
}

/* Whether lines of three columns are where a claim begins with one of four. */
static bool looks_like_table(const struct file *file) {
  enum { TABLE_LINE_BYTES = 37 };
  return file->length % TABLE_LINE_BYTES == 0 && file->length != 0 && file->bytes[TABLE_LINE_BYTES - 1] == '\n';
}

/* The report line as it was written; before the byte 10 the claim's name, where there are several. */
static void put_line(const char *claim, bool several, const uint8_t *report) {
  fwrite(report, 1, PECHUVO_REPORT - 1, stdout);
  if (several) {
    putchar(' ');
    put_name(stdout, claim);
  }
  putchar('\n');
}

static int check_claim(const struct ground *ground, const struct file *claim, const struct asked *asked) {
  uint8_t report[PECHUVO_REPORT];
  struct pechuvo_answer answer =
      pechuvo_check(GIVEN(ground->mesh), GIVEN(ground->table), GIVEN(*claim), asked->decimals, report, sizeof report);
  if (asked->json) {
    put_json_verdict(ground, claim->name, 0, answer, report);
    return status_of(answer);
  }
  put_line(claim->name, asked->several, report);
  if (answer.number != PECHUVO_ACCEPTED) {
    tell_refusal(ground, claim->name, 0, answer);
  }
  if (answer.number == PECHUVO_CLAIM_FORM && looks_like_table(claim)) {
    complain(claim->name, "this looks like a table, and --table takes one");
  }
  return status_of(answer);
}

int check(const struct arguments *given) {
  static struct ground ground;
  static struct file claim;
  struct asked asked = {.json = given->json, .several = given->operands > 2};
  if (!read_decimals(given, &asked.decimals) || !read_ground(given->operand[0], given->table, &ground)) {
    return FAILED;
  }
  int status = ACCEPTED;
  for (int k = 1; k < given->operands; k++) {
    bool there = read_file(given->operand[k], &claim);
    status = worse(status, there ? check_claim(&ground, &claim, &asked) : FAILED);
  }
  return status;
}
