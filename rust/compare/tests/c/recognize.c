/* Recognizes words with table T. Returns 0 if every answer is right, else the number of the first wrong one. */
#include "zagvirk.h"

#include <stdio.h>

static const uint16_t list[18] = {0, 0, 1, 1, 0, 2, 1, 1, 1, 1, 2, 1, 2, 1, 2, 2, 2, 2};
static const uint8_t yes[4] = {1, 2, 1, 2};
static const uint8_t no[4] = {1, 2, 2, 1};

int main(void) {
  zagvirk_machine t = {3, 2, 6, {5, 0, 10}};
  uint16_t run[46];
  zagvirk_recognized recognized;
  zagvirk_checked checked;
  size_t i;

  for (i = 0; i < 46; i++) run[i] = 777;
  recognized = zagvirk_recognize(t, list, 18, no, 4, run, 44);
  if (recognized.refusal != ZAGVIRK_RUN_TOO_SHORT || recognized.needed != 45 || recognized.accepted != 0) return 1;
  recognized = zagvirk_recognize(t, list, 18, no, 4, run, 46);
  if (recognized.refusal != 0 || recognized.accepted != 0 || recognized.entries != 0) return 2;
  for (i = 0; i < 46; i++)
    if (run[i] != 777) return 3;
  recognized = zagvirk_recognize(t, list, 18, yes, 4, run, 46);
  if (recognized.refusal != 0 || recognized.needed != 0 || recognized.accepted != 1) return 4;
  if (recognized.entries < 1 || recognized.entries > 45) return 5;
  checked = zagvirk_check_run(t, list, 18, yes, 4, run, recognized.entries);
  if (checked.refusal != 0 || checked.accepting != 1) return 6;
  for (i = recognized.entries; i < 46; i++)
    if (run[i] != 777) return 7;

  puts("words are recognized right from C");
  return 0;
}
