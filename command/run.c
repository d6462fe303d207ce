/* pechuvo run MESH CLAIMS: the reports of claims that stand one after another in a file. */
#include <inttypes.h>
#include <stdio.h>
#include <string.h>

#include "answers.h"
#include "commands.h"
#include "json.h"
#include "pechuvo.h"
#include "say.h"
#include "whole.h"

/* So many claims are handed over in one call, and so many bytes hold them, whatever they are: no claim is judged cut
   short but at the file's end. A file of any length is read in parts. */
enum { AT_ONCE = 64, ENOUGH = AT_ONCE * PECHUVO_MOST_CLAIM_BYTES };

struct claims {
  const char *name;
  FILE *stream;
  bool ended;
  size_t from; /* the bytes in hand are those from here to 'to' */
  size_t to;
  uint8_t bytes[2 * ENOUGH];
};

struct told {
  uint64_t reports;
  uint64_t bytes;
  int status;
};

/* Sees to it that enough bytes are in hand, or all that are left. */
static bool refill(struct claims *claims) {
  if (claims->ended || claims->to - claims->from >= ENOUGH) {
    return true;
  }
  memmove(claims->bytes, claims->bytes + claims->from, claims->to - claims->from);
  claims->to -= claims->from;
  claims->from = 0;
  size_t room = sizeof claims->bytes - claims->to;
  size_t count = fread(claims->bytes + claims->to, 1, room, claims->stream);
  claims->to += count;
  claims->ended = count < room;
  if (ferror(claims->stream) != 0) {
    complain_of_system(claims->name);
    return false;
  }
  return true;
}

/* Number and place as a report has them. */
static struct pechuvo_answer answer_in(const uint8_t *report) {
  struct columns columns = columns_of(report);
  uint64_t number = 0, place = 0;
  read_unsigned(columns.text[0], &number);
  if (number != PECHUVO_ACCEPTED) {
    read_unsigned(columns.text[1], &place);
  }
  return (struct pechuvo_answer){(uint32_t)number, (uint32_t)place};
}

/* After these the run ends, and the claim's bytes are not taken. */
static bool ends_run(struct pechuvo_answer answer) {
  return answer.number == PECHUVO_CLAIM_FORM || answer.number == PECHUVO_CLAIM_LIMIT ||
         answer.number == PECHUVO_WRONG_PARTS;
}

/* 'which' is the claim's place in the file, from 1. */
static void put_report(const struct ground *ground, const char *claims, uint64_t which, bool json,
                       const uint8_t *report) {
  struct pechuvo_answer answer = answer_in(report);
  if (json) {
    put_json_verdict(ground, claims, which, answer, report);
    return;
  }
  fwrite(report, 1, PECHUVO_REPORT, stdout);
  if (answer.number != PECHUVO_ACCEPTED) {
    tell_refusal(ground, claims, which, answer);
  }
}

/* One call, and its reports; whether the run goes on. */
static bool take_some(const struct ground *ground, struct claims *claims, bool json, struct told *told) {
  static uint8_t reports[AT_ONCE * PECHUVO_REPORT];
  struct pechuvo_run some =
      pechuvo_check_run(GIVEN(ground->mesh), GIVEN(ground->table), claims->bytes + claims->from,
                        claims->to - claims->from, reports, sizeof reports);
  claims->from += some.bytes;
  told->bytes += some.bytes;
  bool goes_on = some.reports == AT_ONCE;
  for (uint64_t k = 0; k < some.reports; k++) {
    const uint8_t *report = reports + k * PECHUVO_REPORT;
    told->reports++;
    told->status = worse(told->status, status_of(answer_in(report)));
    goes_on = goes_on && !ends_run(answer_in(report));
    put_report(ground, claims->name, told->reports, json, report);
  }
  return goes_on;
}

static void tell_end(const struct claims *claims, bool json, const struct told *told) {
  bool left = claims->from < claims->to;
  if (json) {
    fputs("{\"claims\": ", stdout);
    put_json_name(claims->name);
    printf(", \"reports\": %" PRIu64 ", \"bytes\": %" PRIu64 ", \"left_over\": %s}\n", told->reports, told->bytes,
           left ? "true" : "false");
    return;
  }
  fputs("pechuvo: ", stderr);
  put_name(stderr, claims->name);
  fprintf(stderr, ": reports %" PRIu64 ", bytes taken %" PRIu64 ", %s left over\n", told->reports, told->bytes,
          left ? "more are" : "none is");
}

static int run_claims(const struct ground *ground, struct claims *claims, bool json) {
  struct told told = {0};
  bool goes_on = true;
  while (goes_on) {
    if (!refill(claims)) {
      return FAILED;
    }
    goes_on = take_some(ground, claims, json, &told);
  }
  if (told.reports == 0) {
    return complain(claims->name, "no claim is in it");
  }
  tell_end(claims, json, &told);
  return claims->from < claims->to ? worse(told.status, REFUSED) : told.status;
}

int run(const struct arguments *given) {
  static struct ground ground;
  static struct claims claims;
  if (!read_ground(given->operand[0], given->table, &ground)) {
    return FAILED;
  }
  claims.name = given->operand[1];
  claims.stream = fopen(claims.name, "rb");
  if (claims.stream == NULL) {
    return complain_of_system(claims.name);
  }
  int status = run_claims(&ground, &claims, given->json);
  fclose(claims.stream);
  return status;
}
