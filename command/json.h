/* Answers as JSON on standard output: an object a line, and nothing in it that the answer and its report don't say. */
#ifndef JSON_H
#define JSON_H

#include <stdint.h>

#include "files.h"
#include "pechuvo.h"

/* A name as a string, null for none. */
void put_json_name(const char *name);

/* Members of an object, without its braces. Of a text "none" is null; it stands between the given quotes. */
void put_json_text(const char *member, const char *text, const char *quote);
void put_json_ground(const struct ground *ground);
void put_json_answer(struct pechuvo_answer answer, const char *says);

/* A claim's object; 'which' is its place among the claims of a file, 0 where it has a file of its own. */
void put_json_verdict(const struct ground *ground, const char *claim, uint64_t which, struct pechuvo_answer answer,
                      const uint8_t *report);

#endif
