/* What the archive answers, in words: numbers, kinds of place, refusals. */
#include "answers.h"

#include <inttypes.h>
#include <stdbool.h>
#include <string.h>

#include "say.h"

struct columns columns_of(const uint8_t *report) {
  struct columns columns = {0};
  for (int k = 0; k < COLUMNS; k++) {
    size_t length = 0;
    for (int i = 0; i < COLUMN_WIDTH; i++) {
      uint8_t byte = report[k * COLUMN_WIDTH + i];
      if (byte != ' ') {
        columns.text[k][length++] = (char)byte;
      }
    }
  }
  return columns;
}

static const struct {
  uint32_t number;
  const char *words;
} said[] = {
    {PECHUVO_ACCEPTED, "accepted: each part that the claim has passes its checks"},
    {PECHUVO_MESH_FORM, "mesh or table form: length, character, spelling, bytes missing or left over"},
    {PECHUVO_MESH_LIMIT, "mesh or table number outside its limits; a soil of kind 1 on a mesh with 108 sides"},
    {PECHUVO_NO_RIGHT_ANGLE, "p^2 + q^2 is not h^2"},
    {PECHUVO_UNKNOWN_NAME, "names a node or soil that isn't there"},
    {PECHUVO_WRONG_LAYER,
     "table: the first whose top isn't above its bottom; if there is none, the first that shares a height of the "
     "mesh with an earlier one"},
    {PECHUVO_LAYER_MISSING, "table: the lowest height of the mesh in no layer, in quarters of a unit"},
    {PECHUVO_NO_LEFT_TURN, "not a left turn at all corners: four, or three of a triangle"},
    {PECHUVO_SIDE_TWICE, "a directed side that a lower element has"},
    {PECHUVO_NODE_UNUSED, "in no element"},
    {PECHUVO_ELEMENTS_OVERLAP, "shares a point inside both with a lower element; touching is fine"},
    {PECHUVO_WRONG_EDGE, "edge is no element's side, or its reverse is one, or an earlier edge has it"},
    {PECHUVO_WRONG_JUMP,
     "jump: its two sides are not outer sides that face each other, or one is used by an edge or an earlier jump"},
    {PECHUVO_TOO_MANY_PAIRS,
     "brings the 101st pair of a node and a soil of the elements around it, or the 41st on a mesh with 108 sides"},
    {PECHUVO_CLAIM_FORM, "claim form"},
    {PECHUVO_CLAIM_LIMIT, "claim number outside its limits"},
    {PECHUVO_WRONG_PARTS, "both parts absent; field with n = 0; no field and n or l not 0"},
    {PECHUVO_EQUALITY_FAILS, "equality fails (balance, side and jump rows, counted together from 1)"},
    {PECHUVO_STRENGTH_FAILS, "strength fails (strength rows, counted from 1, by pairs)"},
    {PECHUVO_UNFIXED_MULTIPLIER, "nonzero multiplier on an unfixed row"},
    {PECHUVO_COLUMN_SUM, "column sum not 0"},
    {PECHUVO_LOAD_SUM, "m is 0 or less"},
    {PECHUVO_SHORT_BUFFER, "report buffer under 113 bytes"},
    {PECHUVO_WRONG_DECIMALS, "number of decimals other than 0 to 7"},
    {PECHUVO_BOOK_TAKES_NONE,
     "the book takes no such call: the named count differs, the count is 1,000,000 or more, or a bound has a "
     "denominator not above 0"},
    {PECHUVO_NO_NEXT_STRENGTH, "no next strength"},
};

const char *words_of(uint32_t number) {
  for (size_t k = 0; k < sizeof said / sizeof *said; k++) {
    if (said[k].number == number) {
      return said[k].words;
    }
  }
  return "a number that this command does not know";
}

const char *kind_word(uint32_t number) {
  switch (pechuvo_kind_of(number)) {
  case PECHUVO_KIND_LINE:
    return "line";
  case PECHUVO_KIND_HEIGHT:
    return "height";
  case PECHUVO_KIND_ELEMENT:
    return "element";
  case PECHUVO_KIND_NODE:
    return "node";
  case PECHUVO_KIND_ROW:
    return "row";
  case PECHUVO_KIND_COLUMN:
    return "column";
  default:
    return "none";
  }
}

/* The columns of a mesh have 12 characters; how long a line is tells what it is for. */
enum { COLUMN_BYTES = 12, SOIL_LINE = 10 * COLUMN_BYTES, ELEMENT_LINE = 5 * COLUMN_BYTES };

struct line {
  const uint8_t *bytes;
  size_t length;
};

/* A line of a file, counted from 1, without its byte 10; an empty one where there is none. */
static struct line line_at(const struct file *file, uint32_t place) {
  const uint8_t *from = file->bytes, *end = file->bytes + file->length;
  for (uint32_t k = 1;; k++) {
    const uint8_t *to = memchr(from, '\n', (size_t)(end - from));
    if (to == NULL) {
      return (struct line){from, 0};
    }
    if (k == place) {
      return (struct line){from, (size_t)(to - from)};
    }
    from = to + 1;
  }
}

/* Whether a line has this word in a column, counted from 0. */
static bool has(struct line line, size_t column, const char *word) {
  return line.length >= (column + 1) * COLUMN_BYTES &&
         memcmp(line.bytes + column * COLUMN_BYTES, word, COLUMN_BYTES) == 0;
}

static const char *says_of_limit(const struct ground *ground, uint32_t place) {
  if (place >= PECHUVO_TABLE_LINE) {
    return "table number outside its limits";
  }
  if (place == 1) {
    return "mesh number outside its limits: the count of nodes, elements, soils, edges, sides or jumps; with 108 "
           "sides at most 40 nodes";
  }
  bool of_108 = has(line_at(&ground->mesh, 1), 4, "         108");
  return of_108 && line_at(&ground->mesh, place).length == SOIL_LINE
             ? "mesh number outside its limits; or a soil of kind 1 on a mesh with 108 sides"
             : "mesh number outside its limits";
}

const char *says_of(const struct ground *ground, struct pechuvo_answer answer) {
  if (answer.number == PECHUVO_MESH_LIMIT) {
    return says_of_limit(ground, answer.place);
  }
  if (answer.number == PECHUVO_UNKNOWN_NAME && ground->table.length == 0) {
    struct line line = line_at(&ground->mesh, answer.place);
    if (line.length == ELEMENT_LINE && has(line, 4, "           0")) {
      return "names a node or soil that isn't there; soil 0 needs --table";
    }
  }
  return words_of(answer.number);
}

int status_of(struct pechuvo_answer answer) {
  return answer.number == PECHUVO_ACCEPTED ? ACCEPTED : REFUSED;
}

/* Of the refusals that are not about a claim: whether it is about the table. */
static bool about_table(struct pechuvo_answer answer) {
  return answer.number == PECHUVO_LAYER_MISSING ||
         (pechuvo_kind_of(answer.number) == PECHUVO_KIND_LINE && answer.place >= PECHUVO_TABLE_LINE);
}

static bool about_claim(struct pechuvo_answer answer) {
  return answer.number >= PECHUVO_CLAIM_FORM && answer.number <= PECHUVO_LOAD_SUM;
}

static void tell(const char *name, uint64_t which, struct pechuvo_answer answer, const char *says) {
  fputs("pechuvo: ", stderr);
  put_name(stderr, name);
  if (which != 0) {
    fprintf(stderr, ": claim %" PRIu64, which);
  }
  fprintf(stderr, ": refused with %" PRIu32, answer.number);
  if (pechuvo_kind_of(answer.number) != PECHUVO_KIND_NONE) {
    fprintf(stderr, ", %s %" PRIu32, kind_word(answer.number), answer.place);
  }
  fprintf(stderr, ": %s\n", says);
}

void tell_refusal(const struct ground *ground, const char *claim, uint64_t which, struct pechuvo_answer answer) {
  static bool ground_told = false;
  if (about_claim(answer)) {
    tell(claim, which, answer, says_of(ground, answer));
  } else if (!ground_told) {
    tell(about_table(answer) ? ground->table.name : ground->mesh.name, 0, answer, says_of(ground, answer));
    ground_told = true;
  }
}

void tell_book_refusal(const char *book, struct pechuvo_answer answer) {
  tell(book, 0, answer, words_of(answer.number));
}
