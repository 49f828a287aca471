/* Searches for common words of table T with the machines "some 2" and "odd number of 1". Returns 0 if every answer is
 * right, else the number of the first wrong one. */
#include "zagvirk.h"

#include <stdio.h>
#include <string.h>

static const uint16_t t_list[18] = {0, 0, 1, 1, 0, 2, 1, 1, 1, 1, 2, 1, 2, 1, 2, 2, 2, 2};
static const uint16_t two_list[12] = {0, 1, 0, 0, 2, 1, 1, 1, 1, 1, 2, 1};
static const uint16_t odd_list[12] = {0, 1, 1, 0, 2, 0, 1, 1, 0, 1, 2, 1};
static const uint8_t letters[2] = {2, 2};
static const uint16_t first[8] = {0, ZAGVIRK_BEGIN_BUFFERING, 0, 3, 1, ZAGVIRK_BEGIN_EMPTYING, 5,
                                  ZAGVIRK_BACK_TO_NORMAL};
static const uint16_t second[3] = {0, 1, 3};

static uint8_t word[4];
static uint16_t first_run[30];
static uint16_t second_run[5];

static void fill(void) {
  memset(word, 7, sizeof word);
  memset(first_run, 7, sizeof first_run);
  memset(second_run, 7, sizeof second_run);
}

/* Whether the arrays are as they were filled, from these elements on. */
static int same(size_t letters_written, size_t first_written, size_t second_written) {
  size_t i;
  for (i = letters_written; i < 4; i++)
    if (word[i] != 7) return 0;
  for (i = first_written; i < 30; i++)
    if (first_run[i] != 0x0707) return 0;
  for (i = second_written; i < 5; i++)
    if (second_run[i] != 0x0707) return 0;
  return 1;
}

static int nothing(zagvirk_common common) {
  return common.found == 0 && common.letters == 0 && common.first_entries == 0 && common.second_entries == 0 &&
         same(0, 0, 0);
}

int main(void) {
  zagvirk_machine t = {3, 2, 6, {5, 0, 10}};
  zagvirk_machine plain = {2, 2, 4, {1, 2}};
  zagvirk_common common;
  zagvirk_checked checked;

  fill();
  common = zagvirk_common_word(t, t_list, 18, plain, odd_list, 12, word, 4, first_run, 30, second_run, 5);
  if (common.refusal != 0 || common.needed != 0 || !nothing(common)) return 1;
  common = zagvirk_common_word(t, t_list, 18, plain, two_list, 12, word, 1, first_run, 0, second_run, 0);
  if (common.refusal != ZAGVIRK_WORD_TOO_SHORT || common.needed != 2 || !nothing(common)) return 2;
  common = zagvirk_common_word(t, t_list, 18, plain, two_list, 12, word, 2, first_run, 26, second_run, 0);
  if (common.refusal != ZAGVIRK_RUN_TOO_SHORT || common.needed != 27 || !nothing(common)) return 3;
  common = zagvirk_common_word(t, t_list, 18, plain, two_list, 12, word, 2, first_run, 27, second_run, 2);
  if (common.refusal != ZAGVIRK_RUN_TOO_SHORT || common.needed != 3 || !nothing(common)) return 4;
  common = zagvirk_common_word(plain, two_list, 12, t, t_list, 18, word, 4, first_run, 30, second_run, 5);
  if (common.refusal != ZAGVIRK_NOT_PLAIN || common.needed != 0 || !nothing(common)) return 5;
  common = zagvirk_common_word(t, t_list, 17, plain, two_list, 12, word, 4, first_run, 30, second_run, 5);
  if (common.refusal != ZAGVIRK_MACHINE_BROKEN || common.needed != 0 || !nothing(common)) return 6;

  common = zagvirk_common_word(t, t_list, 18, plain, two_list, 12, word, 4, first_run, 30, second_run, 5);
  if (common.refusal != 0 || common.needed != 0 || common.found != 1) return 7;
  if (common.letters != 2 || common.first_entries != 8 || common.second_entries != 3) return 8;
  if (memcmp(word, letters, sizeof letters) != 0 || memcmp(first_run, first, sizeof first) != 0 ||
      memcmp(second_run, second, sizeof second) != 0)
    return 9;
  if (!same(2, 8, 3)) return 10;
  checked = zagvirk_check_run(t, t_list, 18, word, common.letters, first_run, common.first_entries);
  if (checked.refusal != 0 || checked.accepting != 1) return 11;
  checked = zagvirk_check_run(plain, two_list, 12, word, common.letters, second_run, common.second_entries);
  if (checked.refusal != 0 || checked.accepting != 1) return 12;

  puts("common words are found right from C");
  return 0;
}
