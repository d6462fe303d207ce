/* pechuvo sizes MESH: what a mesh asks room for. */
#include <inttypes.h>
#include <stdio.h>

#include "answers.h"
#include "commands.h"
#include "json.h"
#include "pechuvo.h"
#include "say.h"

struct size {
  const char *name;
  uint64_t value;
};

enum { SIZES = 8 };

static void put_json(const struct ground *ground, struct pechuvo_answer answer, const struct size *all) {
  putchar('{');
  put_json_ground(ground);
  fputs(", ", stdout);
  put_json_answer(answer, answer.number == PECHUVO_ACCEPTED ? "the mesh passes its checks" : says_of(ground, answer));
  for (int k = 0; k < SIZES; k++) {
    printf(", \"%s\": ", all[k].name);
    if (answer.number == PECHUVO_ACCEPTED) {
      printf("%" PRIu64, all[k].value);
    } else {
      fputs("null", stdout);
    }
  }
  fputs("}\n", stdout);
}

/* A refused mesh has its refusal and no sizes. */
static void put_text(const struct ground *ground, struct pechuvo_answer answer, const struct size *all) {
  printf("number %" PRIu32 "\nplace %" PRIu32 "\n", answer.number, answer.place);
  if (answer.number != PECHUVO_ACCEPTED) {
    tell_refusal(ground, NULL, 0, answer);
    return;
  }
  for (int k = 0; k < SIZES; k++) {
    printf("%s %" PRIu64 "\n", all[k].name, all[k].value);
  }
}

int sizes(const struct arguments *given) {
  static struct ground ground;
  if (!read_ground(given->operand[0], given->table, &ground)) {
    return FAILED;
  }
  struct pechuvo_sizes told = pechuvo_mesh_sizes(GIVEN(ground.mesh), GIVEN(ground.table));
  struct pechuvo_answer answer = {told.number, told.place};
  const struct size all[SIZES] = {
      {"balance_rows", told.balance_rows}, {"side_rows", told.side_rows},
      {"jump_rows", told.jump_rows},       {"strength_rows", told.strength_rows},
      {"columns", told.columns},           {"field_bytes", told.field_bytes},
      {"multipliers_bytes", told.multipliers_bytes}, {"both_bytes", told.both_bytes},
  };
  if (given->json) {
    put_json(&ground, answer, all);
  } else {
    put_text(&ground, answer, all);
  }
  return status_of(answer);
}
