/* pechuvo: prints what the archive answers about files, and judges nothing itself. */
#include <limits.h>
#include <stdio.h>
#include <string.h>

#include "arguments.h"
#include "commands.h"
#include "files.h"
#include "pechuvo.h"
#include "say.h"

static const char help[] =
    "pechuvo check MESH CLAIM.. [--table TABLE] [--decimals 0..7] [--json]\n"
    "    the report line of each claim: 0, open rows, lower load, upper load; or number, place, none, none\n"
    "pechuvo run MESH CLAIMS [--table TABLE] [--json]\n"
    "    the report lines of claims that stand one after another in a file\n"
    "pechuvo sizes MESH [--table TABLE] [--json]\n"
    "    the rows, the columns and the bytes of a claim\n"
    "pechuvo book BOOK new [--json]\n"
    "pechuvo book BOOK show [--json]\n"
    "pechuvo book BOOK ask MESH CLAIM.. [--table TABLE] [--json]\n"
    "pechuvo book BOOK commit MESH CLAIM.. [--table TABLE] [--count N] [--json]\n"
    "    a book of the best bracket of the claims for one mesh, kept in a file\n"
    "pechuvo --help, -h or help\n"
    "pechuvo --version\n"
    "\n"
    "After -- each word is a file's name. Refusals and mistakes are said on standard error.\n"
    "An outer side without an edge line may carry anything, so a forgotten line raises the load and is accepted.\n"
    "A load is a load of its mesh, and no strict bound for the ground.\n"
    "Status: 0 accepted; 1 refused; 2 usage, or a file that can't be read or written.\n";

struct command {
  const char *name;
  int (*does)(const struct arguments *);
  unsigned options;
  int least; /* operands */
  int most;
  const char *asks; /* what is missing or too much */
};

static const struct command commands[] = {
    {"check", check, TABLE | DECIMALS | JSON, 2, INT_MAX, "a mesh and at least one claim go with it"},
    {"run", run, TABLE | JSON, 2, 2, "a mesh and one file of claims go with it"},
    {"sizes", sizes, TABLE | JSON, 1, 1, "one mesh goes with it"},
    {"book", book, TABLE | COUNT | JSON, 2, INT_MAX, "a book, then new, show, ask or commit go with it"},
};

static int use(const struct command *command, int count, char **words) {
  struct arguments given;
  if (!take_arguments(command->options, count, words, &given)) {
    return FAILED;
  }
  if (given.operands < command->least || given.operands > command->most) {
    return complain(command->name, command->asks);
  }
  return command->does(&given);
}

static int use_named(int count, char **words) {
  for (size_t k = 0; k < sizeof commands / sizeof *commands; k++) {
    if (strcmp(words[0], commands[k].name) == 0) {
      return use(&commands[k], count - 1, words + 1);
    }
  }
  return complain(words[0], "no such command; pechuvo --help tells which there are");
}

static int answer(int count, char **words) {
  if (count == 0) {
    fputs(help, stderr);
    return FAILED;
  }
  if (is_asked("--help", count, words) || is_asked("-h", count, words) || strcmp(words[0], "help") == 0) {
    fputs(help, stdout);
    return ACCEPTED;
  }
  if (strcmp(words[0], "--version") == 0) {
    puts("pechuvo " PECHUVO_VERSION);
    return ACCEPTED;
  }
  return use_named(count, words);
}

int main(int count, char **words) {
  if (!hold_standard_streams()) {
    return FAILED;
  }
  int status = answer(count > 0 ? count - 1 : 0, words + 1);
  return end_output() ? status : FAILED;
}
