/* Lists the copy of a run of table T, and of one whose copy has no letters. Returns 0 if every answer is right, else
 * the number of the first wrong one. */
#include "zagvirk.h"

#include <stdio.h>

static const uint16_t list[18] = {0, 0, 1, 1, 0, 2, 1, 1, 1, 1, 2, 1, 2, 1, 2, 2, 2, 2};
static const uint8_t word[4] = {1, 2, 1, 2};
static const uint16_t run[10] = {0, ZAGVIRK_BEGIN_BUFFERING, 0, 2, 3, 1, ZAGVIRK_BEGIN_EMPTYING, 4, 5,
                                 ZAGVIRK_BACK_TO_NORMAL};
/* Of the empty word. */
static const uint16_t nothing[6] = {0, ZAGVIRK_BEGIN_BUFFERING, 0, 1, ZAGVIRK_BEGIN_EMPTYING, ZAGVIRK_BACK_TO_NORMAL};

int main(void) {
  zagvirk_machine t = {3, 2, 6, {5, 0, 10}};
  uint16_t copies[3] = {7, 7, 7};
  zagvirk_copies_listed listed;

  listed = zagvirk_list_copies(t, list, 18, word, 4, run, 9, copies, 3);
  if (listed.refusal != ZAGVIRK_NOT_ACCEPTING || listed.copies != 0 || listed.total != 0 || copies[0] != 7) return 1;
  listed = zagvirk_list_copies(t, list, 18, word, 4, run, 10, copies, 1);
  if (listed.refusal != ZAGVIRK_COPIES_TOO_SHORT || listed.needed != 2 || copies[0] != 7) return 2;
  listed = zagvirk_list_copies(t, list, 18, word, 4, run, 10, copies, 3);
  if (listed.refusal != 0 || listed.needed != 0 || listed.copies != 1 || listed.total != 2) return 3;
  if (copies[0] != 0 || copies[1] != 2 || copies[2] != 7) return 4;

  copies[0] = copies[1] = 7;
  listed = zagvirk_list_copies(t, list, 18, word, 0, nothing, 6, copies, 0);
  if (listed.refusal != 0 || listed.needed != 0 || listed.copies != 0 || listed.total != 0) return 5;
  listed = zagvirk_list_copies(t, list, 18, word, 0, nothing, 6, copies, 3);
  if (listed.refusal != 0 || listed.needed != 0 || listed.copies != 0 || listed.total != 0) return 6;
  if (copies[0] != 7 || copies[1] != 7 || copies[2] != 7) return 7;
  listed = zagvirk_list_copies(t, list, 18, word, 0, nothing, 5, copies, 0);
  if (listed.refusal != ZAGVIRK_NOT_ACCEPTING || listed.needed != 0) return 8;

  puts("copies are listed right from C");
  return 0;
}
