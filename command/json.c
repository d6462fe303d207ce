/* JSON on standard output. */
#include "json.h"

#include <inttypes.h>
#include <stdbool.h>
#include <string.h>

#include "answers.h"
#include "say.h"

/* How many bytes a character in UTF-8 has that begins here; 0 where none does. */
static size_t character(const char *text) {
  const unsigned char *bytes = (const unsigned char *)text;
  size_t length = bytes[0] < 0x80 ? 1 : bytes[0] < 0xC2 ? 0 : bytes[0] < 0xE0 ? 2 : bytes[0] < 0xF0 ? 3 : 4;
  if (bytes[0] > 0xF4 || (bytes[0] == 0xE0 && bytes[1] < 0xA0) || (bytes[0] == 0xED && bytes[1] > 0x9F) ||
      (bytes[0] == 0xF0 && bytes[1] < 0x90) || (bytes[0] == 0xF4 && bytes[1] > 0x8F)) {
    return 0;
  }
  for (size_t k = 1; k < length; k++) {
    if ((bytes[k] & 0xC0) != 0x80) {
      return 0;
    }
  }
  return length;
}

/* What is no character is written as the character that stands for such a thing. */
void put_json_name(const char *name) {
  if (name == NULL) {
    fputs("null", stdout);
    return;
  }
  putchar('"');
  while (*name != '\0') {
    size_t length = character(name);
    if (length == 0) {
      fputs("\\ufffd", stdout);
    } else if ((unsigned char)*name < 32 || *name == '"' || *name == '\\') {
      printf("\\u%04x", (unsigned)*name);
    } else {
      fwrite(name, 1, length, stdout);
    }
    name += length == 0 ? 1 : length;
  }
  putchar('"');
}

void put_json_ground(const struct ground *ground) {
  fputs("\"mesh\": ", stdout);
  put_json_name(ground->mesh.name);
  fputs(", \"table\": ", stdout);
  put_json_name(ground->table.name);
}

void put_json_answer(struct pechuvo_answer answer, const char *says) {
  printf("\"number\": %" PRIu32 ", \"place\": %" PRIu32 ", \"kind\": \"%s\", \"says\": \"%s\"", answer.number,
         answer.place, kind_word(answer.number), says);
}

void put_json_text(const char *member, const char *text, const char *quote) {
  bool there = strcmp(text, "none") != 0;
  printf(", \"%s\": %s%s%s", member, there ? quote : "", there ? text : "null", there ? quote : "");
}

/* Loads are strings, so that no reader rounds them. */
static void put_json_loads(struct pechuvo_answer answer, const uint8_t *report) {
  struct columns columns = columns_of(report);
  put_json_text("open_rows", status_of(answer) == ACCEPTED ? columns.text[1] : "none", "");
  put_json_text("lower", columns.text[2], "\"");
  put_json_text("upper", columns.text[3], "\"");
}

void put_json_verdict(const struct ground *ground, const char *claim, uint64_t which, struct pechuvo_answer answer,
                      const uint8_t *report) {
  putchar('{');
  put_json_ground(ground);
  fputs(", \"claim\": ", stdout);
  put_json_name(claim);
  if (which != 0) {
    printf(", \"which\": %" PRIu64, which);
  }
  fputs(", ", stdout);
  put_json_answer(answer, says_of(ground, answer));
  put_json_loads(answer, report);
  fputs("}\n", stdout);
}
