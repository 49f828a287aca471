/* Asks table T for the states that runs reach. Returns 0 if every answer is right, else the number of the first wrong
 * one. */
#include "zagvirk.h"

#include <stdio.h>
#include <string.h>

static const uint16_t list[18] = {0, 0, 1, 1, 0, 2, 1, 1, 1, 1, 2, 1, 2, 1, 2, 2, 2, 2};
static const uint8_t yes[4] = {1, 2, 1, 2};
static const uint8_t no[4] = {1, 2, 2, 1};

/* The sets of both words: normal, buffering and emptying mode at positions 0 to 4. At the end of 1 2 1 2 state 2, which
 * is final, is reached in normal mode too. */
static const uint64_t expected[15] = {5, 7, 4, 0, 6, 4, 0, 6, 4, 0, 6, 4, 0, 6, 4};

int main(void) {
  zagvirk_machine t = {3, 2, 6, {5, 0, 10}};
  uint8_t word[256];
  uint64_t sets[16];
  zagvirk_reached reached;

  memset(sets, 99, sizeof sets);
  reached = zagvirk_reach(t, list, 18, no, 4, sets, 16);
  if (reached.refusal != 0 || reached.needed != 0 || reached.sets != 15) return 1;
  if (memcmp(sets, expected, sizeof expected) != 0 || sets[15] != UINT64_C(0x6363636363636363)) return 2;
  reached = zagvirk_reach(t, list, 18, yes, 4, sets, 15);
  if (reached.refusal != 0 || reached.needed != 0 || reached.sets != 15) return 3;
  if (memcmp(sets, expected, 12 * sizeof sets[0]) != 0) return 4;
  if (sets[12 + ZAGVIRK_MODE_NORMAL] != 4 || sets[12 + ZAGVIRK_MODE_BUFFERING] != 6) return 5;
  if (sets[12 + ZAGVIRK_MODE_EMPTYING] != 4) return 6;
  reached = zagvirk_reach(t, list, 18, word, 0, sets, 3);
  if (reached.refusal != 0 || reached.needed != 0 || reached.sets != 3) return 7;
  if (memcmp(sets, expected, 3 * sizeof sets[0]) != 0) return 8;

  memset(sets, 99, sizeof sets);
  memset(word, 0, sizeof word);
  reached = zagvirk_reach(t, list, 17, word, 256, sets, 0);
  if (reached.refusal != ZAGVIRK_MACHINE_BROKEN || reached.needed != 0 || reached.sets != 0) return 9;
  reached = zagvirk_reach(t, list, 18, word, 256, sets, 16);
  if (reached.refusal != ZAGVIRK_WORD_TOO_LONG || reached.needed != 0 || reached.sets != 0) return 10;
  reached = zagvirk_reach(t, list, 18, word, 255, sets, 16);
  if (reached.refusal != ZAGVIRK_WORD_LETTER || reached.needed != 0 || reached.sets != 0) return 11;
  reached = zagvirk_reach(t, list, 18, no, 4, sets, 14);
  if (reached.refusal != ZAGVIRK_SETS_TOO_SHORT || reached.needed != 15 || reached.sets != 0) return 12;
  if (sets[0] != UINT64_C(0x6363636363636363) || sets[13] != UINT64_C(0x6363636363636363)) return 13;

  puts("the states that runs reach are right from C");
  return 0;
}
