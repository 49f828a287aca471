/* Asks table T for words without a run, alone and in a list. Returns 0 if every answer is right, else the number of the
 * first wrong one. */
#include "zagvirk.h"

#include <stdio.h>
#include <string.h>

static const uint16_t list[18] = {0, 0, 1, 1, 0, 2, 1, 1, 1, 1, 2, 1, 2, 1, 2, 2, 2, 2};
static const uint8_t yes[4] = {1, 2, 1, 2};
static const uint8_t no[4] = {1, 2, 2, 1};

/* The words 1 2 1 2, the empty word, 1 2 2 1, 3 and 256 letters 0, and a letter behind them. */
static const size_t ends[5] = {4, 4, 8, 9, 265};
static const size_t falling[3] = {4, 3, 8};
static const size_t past[3] = {4, 8, 267};
static const uint8_t expected[5] = {1, 1, 0, ZAGVIRK_WORD_LETTER, ZAGVIRK_WORD_TOO_LONG};

int main(void) {
  zagvirk_machine t = {3, 2, 6, {5, 0, 10}};
  uint8_t letters[266], answers[6];
  zagvirk_decided decided;
  zagvirk_words_answered answered;

  memset(letters, 0, sizeof letters);
  memcpy(letters, yes, 4);
  memcpy(letters + 4, no, 4);
  letters[8] = 3;
  decided = zagvirk_accepts(t, list, 18, yes, 4);
  if (decided.refusal != 0 || decided.accepted != 1) return 1;
  decided = zagvirk_accepts(t, list, 18, no, 4);
  if (decided.refusal != 0 || decided.accepted != 0) return 2;
  decided = zagvirk_accepts(t, list, 18, letters, 0);
  if (decided.refusal != 0 || decided.accepted != 1) return 3;
  decided = zagvirk_accepts(t, list, 18, letters, 9);
  if (decided.refusal != ZAGVIRK_WORD_LETTER || decided.accepted != 0) return 4;
  decided = zagvirk_accepts(t, list, 18, letters, 256);
  if (decided.refusal != ZAGVIRK_WORD_TOO_LONG || decided.accepted != 0) return 5;
  decided = zagvirk_accepts(t, list, 17, letters, 256);
  if (decided.refusal != ZAGVIRK_MACHINE_BROKEN || decided.accepted != 0) return 6;

  memset(answers, 99, sizeof answers);
  answered = zagvirk_accept_words(t, list, 17, letters, 266, falling, 3, answers, 2);
  if (answered.refusal != ZAGVIRK_MACHINE_BROKEN || answered.needed != 0 || answered.words != 0) return 7;
  answered = zagvirk_accept_words(t, list, 18, letters, 266, falling, 3, answers, 2);
  if (answered.refusal != ZAGVIRK_ENDS_BROKEN || answered.needed != 0 || answered.words != 0) return 8;
  answered = zagvirk_accept_words(t, list, 18, letters, 266, past, 3, answers, 6);
  if (answered.refusal != ZAGVIRK_ENDS_BROKEN || answered.needed != 0 || answered.words != 0) return 9;
  answered = zagvirk_accept_words(t, list, 18, letters, 266, ends, 5, answers, 4);
  if (answered.refusal != ZAGVIRK_ANSWERS_TOO_SHORT || answered.needed != 5 || answered.words != 0) return 10;
  if (answers[0] != 99 || answers[3] != 99) return 11;
  answered = zagvirk_accept_words(t, list, 18, letters, 266, ends, 5, answers, 6);
  if (answered.refusal != 0 || answered.needed != 0 || answered.words != 5) return 12;
  if (memcmp(answers, expected, 5) != 0 || answers[5] != 99) return 13;
  answered = zagvirk_accept_words(t, list, 18, letters, 0, ends, 0, answers, 0);
  if (answered.refusal != 0 || answered.needed != 0 || answered.words != 0) return 14;

  puts("words are answered right from C");
  return 0;
}
