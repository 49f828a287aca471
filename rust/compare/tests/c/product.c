/* Joins table T with the machine "odd number of 1". Returns 0 if every answer is right, else the number of the first
 * wrong one. */
#include "zagvirk.h"

#include <stdio.h>
#include <string.h>

static const uint16_t t_list[18] = {0, 0, 1, 1, 0, 2, 1, 1, 1, 1, 2, 1, 2, 1, 2, 2, 2, 2};
static const uint16_t odd_list[12] = {0, 1, 1, 0, 2, 0, 1, 1, 0, 1, 2, 1};
static const uint16_t first[6] = {0, 0, 2, 1, 0, 3};

int main(void) {
  zagvirk_machine t = {3, 2, 6, {5, 0, 10}};
  zagvirk_machine odd = {2, 2, 4, {1, 2}};
  uint16_t list[40];
  zagvirk_joined joined;

  memset(list, 7, sizeof list);
  joined = zagvirk_join(odd, odd_list, 12, t, t_list, 18, list, 40);
  if (joined.refusal != ZAGVIRK_NOT_PLAIN || joined.machine.states != 0 || list[0] != 0x0707) return 1;
  joined = zagvirk_join(t, t_list, 18, odd, odd_list, 12, list, 35);
  if (joined.refusal != ZAGVIRK_LIST_TOO_SHORT || joined.needed != 36 || list[0] != 0x0707) return 2;
  joined = zagvirk_join(t, t_list, 18, odd, odd_list, 12, list, 40);
  if (joined.refusal != 0 || joined.needed != 0) return 3;
  if (joined.machine.states != 6 || joined.machine.letters != 2 || joined.machine.transitions != 12) return 4;
  if (joined.machine.marks[0] != 5 || joined.machine.marks[1] != 4 || joined.machine.marks[5] != 10) return 5;
  if (memcmp(list, first, sizeof first) != 0 || list[36] != 0x0707) return 6;

  puts("machines are joined right from C");
  return 0;
}
