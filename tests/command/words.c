/* Each number of include/pechuvo.h with what the command says of it: number, kind of place, words, between tabs. */
#include <inttypes.h>
#include <stdio.h>

#include "answers.h"

int main(void) {
  for (uint32_t number = 0; number <= PECHUVO_NO_NEXT_STRENGTH; number++) {
    printf("%" PRIu32 "\t%s\t%s\n", number, kind_word(number), words_of(number));
  }
  return 0;
}
