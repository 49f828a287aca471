#include "zagvirk.h"
#include <stdio.h>

int main(void) {
  zagvirk_machine t = {3, 2, 6, {5, 0, 10}}; /* table T: 3 states, 2 letters, 6 transitions; the marks */
  uint16_t list[18] = {0, 0, 1, 1, 0, 2, 1, 1, 1, 1, 2, 1, 2, 1, 2, 2, 2, 2}; /* from, letter, to */
  uint8_t word[4] = {1, 2, 1, 2};
  uint16_t run[45]; /* 3 x states x (letters + 1) */
  zagvirk_recognized answer = zagvirk_recognize(t, list, 18, word, 4, run, 45);
  printf("refusal %d, accepted %d, entries %zu\n", answer.refusal, answer.accepted, answer.entries);
  return answer.refusal;
}
