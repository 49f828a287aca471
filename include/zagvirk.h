/* Calls of the proved library for finite-state buffered machines (FSBMs).
 *
 *   zagvirk_step          one move of a run
 *   zagvirk_check_run     whether a run accepts a word
 *   zagvirk_read_sheet    a machine from its sheet
 *   zagvirk_write_sheet   a machine's sheet
 *   zagvirk_translate     a written word to letters
 *   zagvirk_join          the product of a machine with a plain machine
 *   zagvirk_list_copies   the copies with letters of an accepting run
 *   zagvirk_write_page    the page of an accepting run, a line for each entry
 *   zagvirk_recognize     whether a machine accepts a word, with a run
 *   zagvirk_accepts       whether a machine accepts a word, without a run
 *   zagvirk_accept_words  the same for each word of a list
 *   zagvirk_reach         the states that runs reach at each position of a word: why a word is not accepted
 *   zagvirk_common_word   a shortest word that a machine and a plain machine both accept, with a run of each
 *
 * A machine has states numbered from 0 (1 to 64), letters numbered from 1 (0 to 250) and transitions numbered from 0
 * (0 to 4,000). Letter 0 in a transition is epsilon: nothing is read. A word is an array of bytes, one letter each.
 *
 * Link with libexports.a. A call only reads the arrays that its prototype marks const. It writes to the fronts of the
 * others and leaves the rest of them as it was; after a refusal, and after the answer no of zagvirk_recognize or
 * zagvirk_common_word, all of them are as they were. An array that is not const may not overlap with another argument.
 * A pointer that goes with a length of 0 must still not be null. Lengths are in elements. Nothing is kept after a call
 * returns, and calls on several threads do not affect one another.
 */
#ifndef ZAGVIRK_H
#define ZAGVIRK_H

#include <stddef.h>
#include <stdint.h>

/* The version of this header. ZAGVIRK_VERSION is 10000 x major + 100 x minor + patch, for #if. While the major version
 * is 0, records and answers may change with the minor version: compile again then.
 */
#define ZAGVIRK_VERSION_MAJOR 0
#define ZAGVIRK_VERSION_MINOR 7
#define ZAGVIRK_VERSION_PATCH 0
#define ZAGVIRK_VERSION (10000 * ZAGVIRK_VERSION_MAJOR + 100 * ZAGVIRK_VERSION_MINOR + ZAGVIRK_VERSION_PATCH)

/* The stack, in bytes, of a thread that makes a call; no call uses a heap. Measured on x86-64 Linux and rounded up, not
 * proved: the least threads that ran the calls on the largest inputs had 464 KB (zagvirk_recognize), 220 KB
 * (zagvirk_common_word), 212 KB (zagvirk_reach), 208 KB (zagvirk_accept_words), 140 KB (zagvirk_accepts), 80 KB
 * (zagvirk_join), 20 KB (zagvirk_read_sheet) and for every other call 16 KB, the least that a thread may have there;
 * these take below 1 KB themselves. What the caller's own functions need comes on top.
 */
#define ZAGVIRK_STACK_RECOGNIZE (480 * 1024)
#define ZAGVIRK_STACK_COMMON_WORD (240 * 1024)
#define ZAGVIRK_STACK_REACH (240 * 1024)
#define ZAGVIRK_STACK_ACCEPT_WORDS (224 * 1024)
#define ZAGVIRK_STACK_ACCEPTS (160 * 1024)
#define ZAGVIRK_STACK_JOIN (96 * 1024)
#define ZAGVIRK_STACK_READ_SHEET (32 * 1024)
#define ZAGVIRK_STACK_SMALL (16 * 1024) /* every other call */

#ifdef __cplusplus
extern "C" {
#endif

/* Marks of a state, added up. Never 4 and 8 together. */
#define ZAGVIRK_INITIAL 1
#define ZAGVIRK_FINAL 2
#define ZAGVIRK_BUFFERING 4
#define ZAGVIRK_MATCHING 8

/* Modes of a configuration. */
#define ZAGVIRK_MODE_NORMAL 0
#define ZAGVIRK_MODE_BUFFERING 1 /* letters read are stored */
#define ZAGVIRK_MODE_EMPTYING 2  /* letters read are matched with the buffer */

/* Entries of a run that are no transition numbers. */
#define ZAGVIRK_BEGIN_BUFFERING 65533
#define ZAGVIRK_BEGIN_EMPTYING 65534
#define ZAGVIRK_BACK_TO_NORMAL 65535

/* Refusals. With 15, 17 to 20, 35 and 36 a result's field `needed` is the length that the array needs, else it is 0. */
#define ZAGVIRK_LINE_CUT_SHORT 1        /* fewer bytes are left than the next line takes */
#define ZAGVIRK_COLUMN_BROKEN 2         /* a column or a line end is not as described; a blank column is 0 */
#define ZAGVIRK_COUNT_OUT_OF_RANGE 3    /* a count is outside its range */
#define ZAGVIRK_STATE_BROKEN 4          /* a state number is out of turn, or a mark is not allowed */
#define ZAGVIRK_TRANSITION_BROKEN 5     /* a transition names a state or a letter that is not there */
#define ZAGVIRK_NOT_RISING 6            /* transitions do not rise strictly */
#define ZAGVIRK_BYTES_LEFT 7            /* bytes follow the last line */
#define ZAGVIRK_WORD_LETTER 8           /* a word has letter 0, a letter above the count, or a byte with no letter */
#define ZAGVIRK_WORD_TOO_LONG 9         /* a word or a run is too long; how long it may be is said at each call */
#define ZAGVIRK_NOT_PLAIN 10            /* the second machine is not plain */
#define ZAGVIRK_LETTERS_DIFFER 11       /* the letter counts differ */
#define ZAGVIRK_TOO_MANY_STATES 12      /* the state counts multiplied exceed 64 */
#define ZAGVIRK_TOO_MANY_TRANSITIONS 13 /* the product's transitions exceed 4,000 */
#define ZAGVIRK_NOT_ACCEPTING 14        /* copies or a page of a run that does not accept */
#define ZAGVIRK_LIST_TOO_SHORT 15       /* the array for transitions is too short */
#define ZAGVIRK_MACHINE_BROKEN 16       /* a machine and its list break the rules */
#define ZAGVIRK_RUN_TOO_SHORT 17        /* the array for a run is too short */
#define ZAGVIRK_WORD_TOO_SHORT 18       /* the array for a word is too short */
#define ZAGVIRK_SHEET_TOO_SHORT 19      /* the array for a sheet or a page is too short */
#define ZAGVIRK_COPIES_TOO_SHORT 20     /* the array for copies is too short */
#define ZAGVIRK_ENDS_BROKEN 34          /* the ends of words fall, or lie past the letters */
#define ZAGVIRK_ANSWERS_TOO_SHORT 35    /* the array for answers is too short */
#define ZAGVIRK_SETS_TOO_SHORT 36       /* the array for sets of states is too short */

/* A machine's record. marks[i] is the mark of state i; marks past the last state are 0.
 *
 * The transitions stand in a list of their own, three numbers each: from-state, letter, to-state. They rise strictly,
 * compared by from, then letter, then to. Elements past 3 x transitions are not looked at; a shorter list is refused
 * with 16.
 */
typedef struct {
  size_t states;
  size_t letters;
  size_t transitions;
  uint8_t marks[64];
} zagvirk_machine;

/* A configuration: the position in the word, the state, the mode, and the buffer word[start..end), that is the letters
 * word[start] to word[end - 1].
 */
typedef struct {
  size_t position;
  size_t state;
  uint8_t mode;
  size_t start;
  size_t end;
} zagvirk_config;

/* The result of zagvirk_step. If refusal is 0 and allowed is 1, config is the next configuration; otherwise it is the
 * one that came in.
 */
typedef struct {
  uint8_t refusal; /* 0, 16, 9 or 8 */
  uint8_t allowed; /* 0 or 1 */
  zagvirk_config config;
} zagvirk_stepped;

/* The result of zagvirk_check_run. accepting is 0 after a refusal. */
typedef struct {
  uint8_t refusal;   /* 0, 16, 9 or 8 */
  uint8_t accepting; /* 0 or 1 */
} zagvirk_checked;

/* The configuration after one entry, or that the move is not allowed.
 *
 * Refuses, in this order: 16 if the machine and its list break the rules, 9 if the word has more than 1,048,576
 * letters, 8 if it has letter 0 or a letter above the count.
 *
 * No move is allowed from a configuration with a position past the word's end, an absent state, a mode above 2, or a
 * buffer that is not a stretch of the word ending at or before the position (buffering mode: ending at it; normal
 * mode: empty), nor by an entry that names nothing.
 *
 * Time: one pass over the machine and the word. Stack: ZAGVIRK_STACK_SMALL.
 */
zagvirk_stepped zagvirk_step(zagvirk_machine machine, const uint16_t *list, size_t list_len, const uint8_t *word,
                             size_t word_len, zagvirk_config config, uint16_t entry);

/* Whether the run accepts the word. A run is its start state, then one entry a move.
 *
 * Refuses as zagvirk_step does. An empty run, a start state that is absent or not initial, and a move that is not
 * allowed make a run that does not accept.
 *
 * Time: one pass over the machine, the word and the run. Stack: ZAGVIRK_STACK_SMALL.
 */
zagvirk_checked zagvirk_check_run(zagvirk_machine machine, const uint16_t *list, size_t list_len, const uint8_t *word,
                                  size_t word_len, const uint16_t *run, size_t run_len);

/* Sheets. */

/* The result of zagvirk_read_sheet. After a refusal every field of machine is 0. */
typedef struct {
  uint8_t refusal; /* 0, 1 to 7 or 15 */
  size_t needed;
  zagvirk_machine machine;
} zagvirk_sheet_read;

/* The result of zagvirk_write_sheet. bytes is the number of bytes written, 0 after a refusal. */
typedef struct {
  uint8_t refusal; /* 0, 16 or 19 */
  size_t needed;
  size_t bytes;
} zagvirk_sheet_written;

/* The machine of a sheet; its transitions are written to the front of list, three elements each.
 *
 * A sheet has decimal numbers in columns of five bytes, right-justified, padded on the left with spaces, without
 * leading zeros; a column of five spaces is 0; every line ends with byte 10. Line one: states, letters, transitions.
 * Then a line for each state: its number and mark. Then a line for each transition: from, letter, to.
 *
 * Refuses at the first fault in reading order, in each line in this order: 1, 2, then 3 (line one), 4 (a state's line)
 * or 5 (a transition's line), then 6; after all lines 7, then 15.
 *
 * Time: each byte of the sheet is looked at once at most. Stack: ZAGVIRK_STACK_READ_SHEET.
 */
zagvirk_sheet_read zagvirk_read_sheet(const uint8_t *sheet, size_t sheet_len, uint16_t *list, size_t list_len);

/* Writes the machine's sheet to the front of sheet: 16 + 11 x states + 16 x transitions bytes, 64,720 at most. A 0 is
 * written as 0: a sheet read and written comes back with its blanks filled, and is else the same.
 *
 * Refuses, in this order: 16, 19.
 *
 * Time: in proportion to the sheet's bytes. Stack: ZAGVIRK_STACK_SMALL.
 */
zagvirk_sheet_written zagvirk_write_sheet(zagvirk_machine machine, const uint16_t *list, size_t list_len,
                                          uint8_t *sheet, size_t sheet_len);

/* Written words. */

/* The result of zagvirk_translate. letters is the number of letters written, 0 after a refusal. */
typedef struct {
  uint8_t refusal; /* 0, 9, 8 or 18 */
  size_t needed;
  size_t letters;
} zagvirk_translated;

/* Writes a letter for each byte to the front of word: a to z are 1 to 26, hyphen is 27, apostrophe 28.
 *
 * Refuses, in this order: 9 over 255 bytes, 8 if a byte has no letter, 18.
 *
 * Time: two passes over the bytes, one to test them and one to write. Stack: ZAGVIRK_STACK_SMALL.
 */
zagvirk_translated zagvirk_translate(const uint8_t *bytes, size_t bytes_len, uint8_t *word, size_t word_len);

/* Products. */

/* The result of zagvirk_join. After a refusal every field of machine is 0. */
typedef struct {
  uint8_t refusal; /* 0, 16, 10 to 13 or 15 */
  size_t needed;
  zagvirk_machine machine;
} zagvirk_joined;

/* The product of a machine with a plain machine, which accepts the words that both accept; its transitions are written
 * to the front of list, three elements each. A plain machine has no buffering or matching state and no epsilon.
 *
 * A state is a pair, numbered first x (states of second) + second. It is initial or final if both are; it is buffering
 * or matching if the first is. A letter moves both, epsilon moves the first alone.
 *
 * Refuses, in this order: 16 (first machine, then second), 10, 11, 12, 13, 15.
 *
 * Time: in proportion to the machines and the product. Stack: ZAGVIRK_STACK_JOIN.
 */
zagvirk_joined zagvirk_join(zagvirk_machine first, const uint16_t *first_list, size_t first_len, zagvirk_machine second,
                            const uint16_t *second_list, size_t second_len, uint16_t *list, size_t list_len);

/* Copies. */

/* The result of zagvirk_list_copies: the number of copies listed and the number of letters stored in all, both 0 after
 * a refusal. */
typedef struct {
  uint8_t refusal; /* 0, 16, 9, 8, 14 or 20 */
  size_t needed;
  size_t copies;
  size_t total;
} zagvirk_copies_listed;

/* Writes for each copy of an accepting run that has letters, in order, the position where buffering began and the
 * number of letters stored, two elements, to the front of copies. A copy is an entry 65,534 of the run; one of no
 * letters is not listed. The letters of a copy that is listed stand twice in the word, so an array of word_len elements
 * is always long enough. If all copies are empty, or there is none, 0 copies and total 0 are given, and copies_len may
 * be 0. The total is added up from the last copy to the first; it is that of all copies of the run.
 * The letters read in normal mode and twice the total make the word's length.
 *
 * Refuses, in this order: 16, 9 over 255 letters, 8, 14, 20 if copies has fewer than two elements for each copy with
 * letters.
 *
 * Time: one pass over the machine and the word, three over the run and one over the copies. Stack: ZAGVIRK_STACK_SMALL.
 */
zagvirk_copies_listed zagvirk_list_copies(zagvirk_machine machine, const uint16_t *list, size_t list_len,
                                          const uint8_t *word, size_t word_len, const uint16_t *run, size_t run_len,
                                          uint16_t *copies, size_t copies_len);

/* Pages. */

/* The most letters of a word and the most entries of a run that a page takes. */
#define ZAGVIRK_PAGE_LETTERS 255
#define ZAGVIRK_PAGE_ENTRIES 99999

/* The bytes of the page of a run with so many entries: 31 for each entry's line and 19 for the last line. With the most
 * entries they are 3,099,988. */
#define ZAGVIRK_PAGE_BYTES(entries) (31 * (size_t)(entries) + 19)

/* The result of zagvirk_write_page. bytes is the number of bytes written, 0 after a refusal. */
typedef struct {
  uint8_t refusal; /* 0, 16, 9, 8, 14 or 19 */
  size_t needed;
  size_t bytes;
} zagvirk_page_written;

/* Writes the page of an accepting run to the front of page: for each entry, the start state first, a line of five
 * columns, then a last line of three. A column has six bytes, a decimal number as zagvirk_write_sheet writes it; every
 * line ends with byte 10.
 *
 * An entry's line has the entry's number, counted from 0, and what there is after the entry: the state, the mode
 * (ZAGVIRK_MODE_NORMAL, ZAGVIRK_MODE_BUFFERING, ZAGVIRK_MODE_EMPTYING), the letters read so far and the letters in the
 * buffer. The last line has the letters read in normal mode, the letters stored, each counted once, and the word's
 * length: the first and twice the second make the third.
 *
 * Refuses, in this order: 16, 9 if the word has more than ZAGVIRK_PAGE_LETTERS letters or the run more than
 * ZAGVIRK_PAGE_ENTRIES entries, 8, 14 also if the run is empty, 19 if page has fewer than ZAGVIRK_PAGE_BYTES(run_len)
 * elements.
 *
 * Time: in proportion to the machine, the word and the run; no memory beside the arguments. Stack: ZAGVIRK_STACK_SMALL.
 */
zagvirk_page_written zagvirk_write_page(zagvirk_machine machine, const uint16_t *list, size_t list_len,
                                        const uint8_t *word, size_t word_len, const uint16_t *run, size_t run_len,
                                        uint8_t *page, size_t page_len);

/* Recognition. */

/* The result of zagvirk_recognize. entries is the number of entries of the run, 0 if accepted is 0. */
typedef struct {
  uint8_t refusal; /* 0, 16, 9, 8 or 17 */
  size_t needed;
  uint8_t accepted; /* 0 or 1 */
  size_t entries;
} zagvirk_recognized;

/* Whether the machine accepts the word; if so, an accepting run is written to the front of run. Which one is left open.
 *
 * Refuses, in this order: 16, 9 over 255 letters, 8, 17 if run has fewer than 3 x states x (word_len + 1) elements,
 * whatever the answer would be.
 *
 * Time: one pass over the machine and the word, then sets of states, at most word_len^2 / 2 of them for the answer; for
 * a run rows of fewest entries, at most word_len^2 / 2 of them too. Stack: ZAGVIRK_STACK_RECOGNIZE, of which a word
 * that is not accepted takes 140 KB.
 */
zagvirk_recognized zagvirk_recognize(zagvirk_machine machine, const uint16_t *list, size_t list_len,
                                     const uint8_t *word, size_t word_len, uint16_t *run, size_t run_len);

/* Yes or no without a run. */

/* The result of zagvirk_accepts. accepted is 0 after a refusal. */
typedef struct {
  uint8_t refusal;  /* 0, 16, 9 or 8 */
  uint8_t accepted; /* 0 or 1 */
} zagvirk_decided;

/* The result of zagvirk_accept_words. words is the number of answers written, 0 after a refusal. */
typedef struct {
  uint8_t refusal; /* 0, 16, 34 or 35 */
  size_t needed;
  size_t words;
} zagvirk_words_answered;

/* Whether the machine accepts the word. The answer is that of zagvirk_recognize with a run that is long enough.
 *
 * Refuses, in this order: 16, 9 over 255 letters, 8.
 *
 * Time: one pass over the machine and the word, then sets of states, at most word_len^2 / 2 of them. Stack:
 * ZAGVIRK_STACK_ACCEPTS.
 */
zagvirk_decided zagvirk_accepts(zagvirk_machine machine, const uint16_t *list, size_t list_len, const uint8_t *word,
                                size_t word_len);

/* Whether the machine accepts each word of a list, which has any number of words, also none. The letters of all words
 * stand one after another in letters: word k, counted from 0, ends before letters[ends[k]] and begins where the word
 * before it ends, the first one at letters[0]. A word may be empty. Letters behind the last end are not looked at.
 *
 * For each word a byte is written to the front of answers: 1 yes, 0 no, else the refusal of this word alone, 9 over 255
 * letters, then 8.
 *
 * Refuses, in this order: 16, 34 if an end is below the one before it or above letters_len, 35 if answers has fewer
 * than ends_len elements.
 *
 * Time: the machine is tested and prepared once, in proportion to it; then passes over the ends and the letters, and
 * for each word sets of states as in zagvirk_accepts; what a set of states leads to is found once and kept from
 * word to word. Stack: ZAGVIRK_STACK_ACCEPT_WORDS, whatever the number of words.
 */
zagvirk_words_answered zagvirk_accept_words(zagvirk_machine machine, const uint16_t *list, size_t list_len,
                                            const uint8_t *letters, size_t letters_len, const size_t *ends,
                                            size_t ends_len, uint8_t *answers, size_t answers_len);

/* Where runs get to. */

/* The result of zagvirk_reach. sets is the number of elements written, 0 after a refusal. */
typedef struct {
  uint8_t refusal; /* 0, 16, 9, 8 or 36 */
  size_t needed;
  size_t sets;
} zagvirk_reached;

/* The states that runs reach at each position of the word, 0 to word_len, in each mode. A set of states is an element:
 * bit q, the one with the value 2^q, is 1 for state q. The set of position p and mode t (ZAGVIRK_MODE_NORMAL,
 * ZAGVIRK_MODE_BUFFERING, ZAGVIRK_MODE_EMPTYING) is written to sets[3 * p + t]: the states of the configurations with
 * this position and mode, whatever is in their buffers, that some entries lead to from where a run starts, position 0,
 * an initial state, normal mode and an empty buffer. So 3 x (word_len + 1) elements are written.
 *
 * The machine accepts the word exactly if a final state is in the last set of normal mode. If the three sets of a
 * position are empty, so are all behind them.
 *
 * Refuses, in this order: 16, 9 over 255 letters, 8, 36 if sets has fewer than 3 x (word_len + 1) elements.
 *
 * Time: one pass over the machine and the word, the sets of normal mode as in zagvirk_accepts, then a step of a set for
 * each start and each end of what may be stored, at most word_len^2 / 2 of them, and for each such end one for each
 * letter that stands again behind it, at most word_len^3 / 12. What a set leads to is found once and kept, as long as
 * there is room. Stack: ZAGVIRK_STACK_REACH.
 */
zagvirk_reached zagvirk_reach(zagvirk_machine machine, const uint16_t *list, size_t list_len, const uint8_t *word,
                              size_t word_len, uint64_t *sets, size_t sets_len);

/* Common words. */

/* The result of zagvirk_common_word: the number of letters of the word and the numbers of entries of the two runs, all
 * 0 if found is 0. With refusal 0 and found 0 there is no common word. */
typedef struct {
  uint8_t refusal; /* 0, 16, 10 to 13, 18 or 17 */
  size_t needed;
  uint8_t found; /* 0 or 1 */
  size_t letters;
  size_t first_entries;
  size_t second_entries;
} zagvirk_common;

/* Whether there is a word, of whatever length, that a machine and a plain machine both accept; if so, a shortest one is
 * written to the front of word, an accepting run of the first machine to the front of first_run and one of the second
 * to the front of second_run. Which shortest word and which runs is left open. The second run has one entry more than
 * the word has letters. If there is no common word all three arrays are as they were.
 *
 * Refuses, in this order: 16 (first machine, then second), 10, 11, 12, 13 as zagvirk_join does; then, only if there is
 * a common word, of n letters: 18 if word has fewer than n elements, 17 if first_run has fewer than 3 x states of the
 * first x (n + 1), 17 if second_run has fewer than n + 1. A shortest common word has at most 515,970 letters.
 *
 * Time: that of zagvirk_join; then the product's moves, as often as a least weight is lowered, and for each round of
 * copies a table of pairs of states for each state where storing can end; then the word and its runs. Stack:
 * ZAGVIRK_STACK_COMMON_WORD.
 */
zagvirk_common zagvirk_common_word(zagvirk_machine first, const uint16_t *first_list, size_t first_len,
                                   zagvirk_machine second, const uint16_t *second_list, size_t second_len,
                                   uint8_t *word, size_t word_len, uint16_t *first_run, size_t first_run_len,
                                   uint16_t *second_run, size_t second_run_len);

#ifdef __cplusplus
}
#endif

#endif
