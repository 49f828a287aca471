/* Calls both functions on table T, the doubled words over letters 1 and 2. Returns 0 if every answer is right, else the
 * number of the first wrong one. */
#include "zagvirk.h"

#include <stdio.h>

static const uint16_t list[18] = {0, 0, 1, 1, 0, 2, 1, 1, 1, 1, 2, 1, 2, 1, 2, 2, 2, 2};
static const uint8_t word[4] = {1, 2, 1, 2};
static const uint16_t run[10] = {0, ZAGVIRK_BEGIN_BUFFERING, 0, 2, 3, 1, ZAGVIRK_BEGIN_EMPTYING, 4, 5,
                                 ZAGVIRK_BACK_TO_NORMAL};

static int same(zagvirk_config a, zagvirk_config b) {
  return a.position == b.position && a.state == b.state && a.mode == b.mode && a.start == b.start && a.end == b.end;
}

int main(void) {
  zagvirk_machine t = {3, 2, 6, {0}};
  zagvirk_config config = {0, 0, ZAGVIRK_MODE_NORMAL, 0, 0};
  zagvirk_config last = {4, 2, ZAGVIRK_MODE_NORMAL, 2, 2};
  zagvirk_checked checked;
  zagvirk_stepped stepped;
  size_t i;

  t.marks[0] = ZAGVIRK_INITIAL + ZAGVIRK_BUFFERING;
  t.marks[2] = ZAGVIRK_FINAL + ZAGVIRK_MATCHING;

  checked = zagvirk_check_run(t, list, 18, word, 4, run, 10);
  if (checked.refusal != 0 || checked.accepting != 1) return 1;
  checked = zagvirk_check_run(t, list, 18, word, 4, run, 9);
  if (checked.refusal != 0 || checked.accepting != 0) return 2;
  checked = zagvirk_check_run(t, list, 18, word, 3, run, 10);
  if (checked.refusal != 0 || checked.accepting != 0) return 3;
  checked = zagvirk_check_run(t, list, 18, word, 0, run, 0);
  if (checked.refusal != 0 || checked.accepting != 0) return 4;
  checked = zagvirk_check_run(t, list, 17, word, 4, run, 10);
  if (checked.refusal != ZAGVIRK_MACHINE_BROKEN || checked.accepting != 0) return 5;

  for (i = 1; i < 10; i++) {
    stepped = zagvirk_step(t, list, 18, word, 4, config, run[i]);
    if (stepped.refusal != 0 || stepped.allowed != 1) return 6;
    config = stepped.config;
  }
  if (!same(config, last)) return 7;
  stepped = zagvirk_step(t, list, 18, word, 4, config, ZAGVIRK_BACK_TO_NORMAL);
  if (stepped.refusal != 0 || stepped.allowed != 0 || !same(stepped.config, last)) return 8;
  config.mode = 3;
  stepped = zagvirk_step(t, list, 18, word, 4, config, 0);
  if (stepped.refusal != 0 || stepped.allowed != 0 || !same(stepped.config, config)) return 9;

  t.letters = 1;
  stepped = zagvirk_step(t, list, 18, word, 4, config, 0);
  if (stepped.refusal != ZAGVIRK_MACHINE_BROKEN || stepped.allowed != 0) return 10;
  t.transitions = 3;
  stepped = zagvirk_step(t, list, 18, word, 4, config, 0);
  if (stepped.refusal != ZAGVIRK_WORD_LETTER || stepped.allowed != 0) return 11;

  puts("both calls answer right from C");
  return 0;
}
