/* The arguments of a command, its options among them. */
#include "arguments.h"

#include <stddef.h>
#include <string.h>

#include "say.h"

struct option {
  const char *name;
  unsigned bit;
  const char **value; /* NULL where it takes none */
};

/* Whether a word names an option, alone or with its value after '='. */
static bool names(const char *word, const char *name) {
  size_t length = strlen(name);
  return strncmp(word, name, length) == 0 && (word[length] == '\0' || word[length] == '=');
}

static bool is_operand(const char *word) {
  return word[0] != '-' || word[1] == '\0';
}

static bool fails(const char *word, const char *what) {
  complain(word, what);
  return false;
}

/* The one of the options that a word names, of those in the set; NULL where there is none. */
static const struct option *named(const struct option *options, unsigned set, const char *word) {
  for (; options->name != NULL; options++) {
    if ((set & options->bit) != 0 && names(word, options->name)) {
      return options;
    }
  }
  return NULL;
}

/* The option's value: what follows '=', or the next word. */
static bool take_value(const struct option *option, int count, char **words, int *k) {
  const char *equals = strchr(words[*k], '=');
  if (option->value == NULL) {
    return equals == NULL || fails(words[*k], "this option takes no value");
  }
  if (equals == NULL && *k + 1 == count) {
    return fails(words[*k], "its value is missing");
  }
  *option->value = equals != NULL ? equals + 1 : words[++*k];
  return true;
}

/* The option at word k, one of the set and not seen before, with its value. */
static bool take_option(const struct option *options, unsigned set, unsigned *seen, int count, char **words, int *k) {
  const struct option *option = named(options, set, words[*k]);
  if (option == NULL) {
    return fails(words[*k], "this command has no such option");
  }
  if ((*seen & option->bit) != 0) {
    return fails(words[*k], "given twice");
  }
  *seen |= option->bit;
  return take_value(option, count, words, k);
}

bool take_arguments(unsigned options, int count, char **words, struct arguments *taken) {
  *taken = (struct arguments){.operand = words};
  const struct option all[] = {
      {"--table", TABLE, &taken->table},
      {"--decimals", DECIMALS, &taken->decimals},
      {"--count", COUNT, &taken->count},
      {"--json", JSON, NULL},
      {NULL, 0, NULL},
  };
  unsigned seen = 0;
  bool operands_only = false;
  for (int k = 0; k < count; k++) {
    if (operands_only || is_operand(words[k])) {
      words[taken->operands++] = words[k];
    } else if (strcmp(words[k], "--") == 0) {
      operands_only = true;
    } else if (!take_option(all, options, &seen, count, words, &k)) {
      return false;
    }
  }
  taken->json = (seen & JSON) != 0;
  return true;
}

bool is_asked(const char *option, int count, char **words) {
  for (int k = 0; k < count && strcmp(words[k], "--") != 0; k++) {
    if (strcmp(words[k], option) == 0) {
      return true;
    }
  }
  return false;
}
