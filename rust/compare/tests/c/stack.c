/* Makes each call in a thread with the stack that the header says, on inputs as large as a call takes. Returns 0 if
 * every answer is right, else the number of the first wrong one; a stack that is too small ends the program. */
#define _POSIX_C_SOURCE 200112L
#include "zagvirk.h"

#include <pthread.h>
#include <stdio.h>
#include <stdlib.h>
#include <string.h>

#define LONGEST 1048576
#define WORDS 100000
#define LONG_PAIRS 200

static const uint16_t t_list[18] = {0, 0, 1, 1, 0, 2, 1, 1, 1, 1, 2, 1, 2, 1, 2, 2, 2, 2};
static zagvirk_machine t = {3, 2, 6, {5, 0, 10}};
/* One state with an epsilon transition to itself, number 0, and its longest run that has a page. */
static zagvirk_machine circle = {1, 0, 1, {3}};
static const uint16_t circle_list[3] = {0, 0, 0}, circle_run[ZAGVIRK_PAGE_ENTRIES] = {0};
static zagvirk_machine largest, doubled, plain;
static uint16_t largest_list[12000], doubled_list[42], plain_list[5937], list[12000];
static uint8_t word[LONGEST], sheet[64720], written[255], page[ZAGVIRK_PAGE_BYTES(ZAGVIRK_PAGE_ENTRIES)];
static uint16_t run[LONGEST + 8], first_run[200000], second_run[1000], copies[2];
static uint8_t letters[LONG_PAIRS * 509], answers[WORDS];
static size_t sheet_bytes, ends[WORDS];
static uint64_t sets[768];

static void add(zagvirk_machine *m, uint16_t *to, unsigned from, unsigned letter, unsigned end) {
  to[m->transitions * 3] = (uint16_t)from;
  to[m->transitions * 3 + 1] = (uint16_t)letter;
  to[m->transitions * 3 + 2] = (uint16_t)end;
  m->transitions++;
}

/* Doubled words over so many letters, by three of the states; the others have transitions among themselves. */
static void make_doubled(zagvirk_machine *m, uint16_t *to, size_t states, unsigned letters, size_t transitions) {
  unsigned x, p;
  m->states = states;
  m->letters = letters;
  m->marks[0] = 5;
  m->marks[2] = 10;
  add(m, to, 0, 0, 1);
  add(m, to, 1, 0, 2);
  for (p = 1; p < states; p++)
    for (x = 1; x <= letters; x++)
      if (m->transitions < transitions) add(m, to, p, x, p);
}

/* A doubled word of n letters over 1 and 2 with table T's run of it, and one letter more behind it. */
static void make_word(size_t n) {
  size_t i, k = 3;
  if (n < LONGEST) word[n] = 1;
  for (i = 0; i < n / 2; i++) word[i] = word[n / 2 + i] = i % 3 == 0 ? 2 : 1;
  run[0] = 0;
  run[1] = ZAGVIRK_BEGIN_BUFFERING;
  run[2] = 0;
  for (i = 0; i < n / 2; i++) run[k++] = (uint16_t)(1 + word[i]);
  run[k++] = 1;
  run[k++] = ZAGVIRK_BEGIN_EMPTYING;
  for (i = 0; i < n / 2; i++) run[k++] = (uint16_t)(3 + word[i]);
  run[k++] = ZAGVIRK_BACK_TO_NORMAL;
}

static void *recognize(void *wrong) {
  zagvirk_recognized answer = zagvirk_recognize(largest, largest_list, 12000, word, 254, first_run, 200000);
  if (answer.refusal != 0 || answer.accepted != 1) *(int *)wrong = 1;
  answer = zagvirk_recognize(t, t_list, 18, word, 254, first_run, 200000);
  if (answer.refusal != 0 || answer.accepted != 1) *(int *)wrong = 2;
  answer = zagvirk_recognize(largest, largest_list, 12000, word, 255, first_run, 200000);
  if (answer.refusal != 0 || answer.accepted != 0) *(int *)wrong = 3;
  return NULL;
}

static void *accepts(void *wrong) {
  zagvirk_decided answer = zagvirk_accepts(largest, largest_list, 12000, word, 254);
  if (answer.refusal != 0 || answer.accepted != 1) *(int *)wrong = 12;
  answer = zagvirk_accepts(t, t_list, 18, word, 254);
  if (answer.refusal != 0 || answer.accepted != 1) *(int *)wrong = 12;
  answer = zagvirk_accepts(largest, largest_list, 12000, word, 255);
  if (answer.refusal != 0 || answer.accepted != 0) *(int *)wrong = 13;
  return NULL;
}

/* A list of words of 254 and 255 letters in turn with empty words behind them. */
static void *accept_words(void *wrong) {
  size_t i;
  zagvirk_words_answered answered;
  for (i = 0; i < LONG_PAIRS; i++) {
    memcpy(letters + 509 * i, word, 254);
    memcpy(letters + 509 * i + 254, word, 255);
    ends[2 * i] = 509 * i + 254;
    ends[2 * i + 1] = 509 * i + 509;
  }
  for (i = 2 * LONG_PAIRS; i < WORDS; i++) ends[i] = sizeof letters;
  answered = zagvirk_accept_words(largest, largest_list, 12000, letters, sizeof letters, ends, WORDS, answers, WORDS);
  if (answered.refusal != 0 || answered.words != WORDS) *(int *)wrong = 14;
  for (i = 0; i < WORDS; i++)
    if (answers[i] != (i >= 2 * LONG_PAIRS || i % 2 == 0)) *(int *)wrong = 15;
  return NULL;
}

/* In normal mode both tables end in state 2 alone, or nowhere. */
static void *reach(void *wrong) {
  zagvirk_reached reached = zagvirk_reach(largest, largest_list, 12000, word, 254, sets, 768);
  if (reached.refusal != 0 || reached.sets != 765 || sets[762] != 4) *(int *)wrong = 18;
  reached = zagvirk_reach(t, t_list, 18, word, 254, sets, 768);
  if (reached.refusal != 0 || reached.sets != 765 || sets[762] != 4) *(int *)wrong = 18;
  reached = zagvirk_reach(largest, largest_list, 12000, word, 255, sets, 768);
  if (reached.refusal != 0 || reached.sets != 768 || sets[765] != 0) *(int *)wrong = 19;
  return NULL;
}

static void *common_word(void *wrong) {
  zagvirk_common common = zagvirk_common_word(doubled, doubled_list, 42, plain, plain_list, 5937, word, 1000, first_run,
                                              200000, second_run, 1000);
  if (common.refusal != 0 || common.found != 1) *(int *)wrong = 4;
  return NULL;
}

static void *join(void *wrong) {
  zagvirk_joined joined = zagvirk_join(doubled, doubled_list, 42, plain, plain_list, 5937, list, 12000);
  if (joined.refusal != 0 || joined.machine.transitions != 4000) *(int *)wrong = 5;
  return NULL;
}

static void *small(void *wrong) {
  zagvirk_config start = {0, 0, ZAGVIRK_MODE_NORMAL, 0, 0};
  if (zagvirk_step(largest, largest_list, 12000, word, LONGEST, start, run[1]).allowed != 1) *(int *)wrong = 6;
  if (zagvirk_check_run(t, t_list, 18, word, LONGEST, run, LONGEST + 6).accepting != 1) *(int *)wrong = 7;
  sheet_bytes = zagvirk_write_sheet(largest, largest_list, 12000, sheet, sizeof sheet).bytes;
  if (sheet_bytes != sizeof sheet) *(int *)wrong = 8;
  if (zagvirk_translate(written, 255, word, 255).letters != 255) *(int *)wrong = 10;
  return NULL;
}

/* Reads the sheet that small has written: that runs before, as it has less stack. */
static void *read_sheet(void *wrong) {
  if (zagvirk_read_sheet(sheet, sheet_bytes, list, 12000).machine.transitions != 4000) *(int *)wrong = 9;
  return NULL;
}

static void *list_copies(void *wrong) {
  if (zagvirk_list_copies(t, t_list, 18, word, 254, run, 260, copies, 2).total != 127) *(int *)wrong = 11;
  return NULL;
}

static void *write_page(void *wrong) {
  zagvirk_page_written answer = zagvirk_write_page(t, t_list, 18, word, 254, run, 260, page, sizeof page);
  if (answer.bytes != ZAGVIRK_PAGE_BYTES(260)) *(int *)wrong = 20;
  answer = zagvirk_write_page(circle, circle_list, 3, word, 0, circle_run, ZAGVIRK_PAGE_ENTRIES, page, sizeof page);
  if (answer.bytes != sizeof page) *(int *)wrong = 21;
  return NULL;
}

/* What is wrong after the call in a thread with so much stack: 0 if nothing is. */
static int in_thread(void *(*call)(void *), size_t stack) {
  pthread_attr_t attributes;
  pthread_t thread;
  int wrong = 0;
  if (pthread_attr_init(&attributes) != 0 || pthread_attr_setstacksize(&attributes, stack) != 0) return 16;
  if (pthread_create(&thread, &attributes, call, &wrong) != 0 || pthread_join(thread, NULL) != 0) return 17;
  return wrong;
}

/* What runs in a thread: calls, the stack, and the letters of the word that they have. */
typedef struct {
  void *(*calls)(void *);
  size_t stack;
  size_t letters;
} part;

static part parts[] = {
    {small, ZAGVIRK_STACK_SMALL, LONGEST},
    {list_copies, ZAGVIRK_STACK_SMALL, 254},
    {write_page, ZAGVIRK_STACK_SMALL, 254},
    {read_sheet, ZAGVIRK_STACK_READ_SHEET, 254},
    {join, ZAGVIRK_STACK_JOIN, 254},
    {accepts, ZAGVIRK_STACK_ACCEPTS, 254},
    {accept_words, ZAGVIRK_STACK_ACCEPT_WORDS, 254},
    {reach, ZAGVIRK_STACK_REACH, 254},
    {common_word, ZAGVIRK_STACK_COMMON_WORD, 254},
    {recognize, ZAGVIRK_STACK_RECOGNIZE, 254},
};

#define PARTS (sizeof parts / sizeof parts[0])

static int by_stack(const void *first, const void *second) {
  size_t a = ((const part *)first)->stack, b = ((const part *)second)->stack;
  return (a > b) - (a < b);
}

int main(void) {
  unsigned p, x, q;
  size_t i;
  int wrong;
  make_doubled(&largest, largest_list, 64, 250, 4000);
  make_doubled(&doubled, doubled_list, 3, 6, 14);
  plain.states = 21;
  plain.letters = 6;
  plain.marks[0] = 1;
  plain.marks[20] = 2;
  for (p = 0; p < 21; p++)
    for (x = 1; x <= 6; x++)
      for (q = 0; q < 21; q++)
        if (plain.transitions < 1979) add(&plain, plain_list, p, x, q);
  memset(written, 'z', sizeof written);

  /* From the least stack to the largest: a thread may be given the stack of one that has ended, if that is larger. */
  qsort(parts, PARTS, sizeof parts[0], by_stack);
  for (i = 0; i < PARTS; i++) {
    make_word(parts[i].letters);
    wrong = in_thread(parts[i].calls, parts[i].stack);
    if (wrong != 0) return wrong;
  }

  puts("every call runs in a thread with the stack that the header says");
  return 0;
}
