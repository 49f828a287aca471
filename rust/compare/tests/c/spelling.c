/* Translates a written word. Returns 0 if every answer is right, else the number of the first wrong one. */
#include "zagvirk.h"

#include <stdio.h>
#include <string.h>

static const uint8_t expected[9] = {23, 9, 11, 9, 27, 23, 9, 11, 28};

int main(void) {
  uint8_t word[10];
  zagvirk_translated translated;

  memset(word, 99, sizeof word);
  translated = zagvirk_translate((const uint8_t *)"wiki-wik'", 9, word, 8);
  if (translated.refusal != ZAGVIRK_WORD_TOO_SHORT || translated.needed != 9 || word[0] != 99) return 1;
  translated = zagvirk_translate((const uint8_t *)"wiki wiki", 9, word, 10);
  if (translated.refusal != ZAGVIRK_WORD_LETTER || translated.needed != 0 || word[0] != 99) return 2;
  translated = zagvirk_translate((const uint8_t *)"wiki-wik'", 9, word, 10);
  if (translated.refusal != 0 || translated.letters != 9) return 3;
  if (memcmp(word, expected, 9) != 0 || word[9] != 99) return 4;

  puts("words are translated right from C");
  return 0;
}
