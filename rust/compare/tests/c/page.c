/* Writes the page of a run of table T, and of one whose copy has no letters. Returns 0 if every answer is right, else
 * the number of the first wrong one. */
#include "zagvirk.h"

#include <stdio.h>
#include <string.h>

static const uint16_t list[18] = {0, 0, 1, 1, 0, 2, 1, 1, 1, 1, 2, 1, 2, 1, 2, 2, 2, 2};
static const uint8_t word[4] = {1, 2, 1, 2};
static const uint16_t run[10] = {0, ZAGVIRK_BEGIN_BUFFERING, 0, 2, 3, 1, ZAGVIRK_BEGIN_EMPTYING, 4, 5,
                                 ZAGVIRK_BACK_TO_NORMAL};
static const char text[] =
    "     0     0     0     0     0\n     1     0     1     0     0\n     2     1     1     0     0\n"
    "     3     1     1     1     1\n     4     1     1     2     2\n     5     2     1     2     2\n"
    "     6     2     2     2     2\n     7     2     2     3     1\n     8     2     2     4     0\n"
    "     9     2     0     4     0\n     0     2     4\n";
/* Of the empty word. */
static const uint16_t nothing[6] = {0, ZAGVIRK_BEGIN_BUFFERING, 0, 1, ZAGVIRK_BEGIN_EMPTYING, ZAGVIRK_BACK_TO_NORMAL};
static const char nothing_text[] =
    "     0     0     0     0     0\n     1     0     1     0     0\n     2     1     1     0     0\n"
    "     3     2     1     0     0\n     4     2     2     0     0\n     5     2     0     0     0\n"
    "     0     0     0\n";

static uint8_t long_word[ZAGVIRK_PAGE_LETTERS + 1];
static uint16_t long_run[ZAGVIRK_PAGE_ENTRIES + 1];

int main(void) {
  zagvirk_machine t = {3, 2, 6, {5, 0, 10}};
  uint8_t page[340];
  zagvirk_page_written written;

  if (ZAGVIRK_PAGE_BYTES(10) != 329 || ZAGVIRK_PAGE_BYTES(ZAGVIRK_PAGE_ENTRIES) != 3099988) return 1;
  memset(page, 7, sizeof page);
  written = zagvirk_write_page(t, list, 18, word, 4, run, 9, page, 340);
  if (written.refusal != ZAGVIRK_NOT_ACCEPTING || written.needed != 0 || written.bytes != 0) return 2;
  written = zagvirk_write_page(t, list, 18, word, 4, run, 0, page, 340);
  if (written.refusal != ZAGVIRK_NOT_ACCEPTING || written.needed != 0 || written.bytes != 0) return 3;
  written = zagvirk_write_page(t, list, 18, word, 4, run, 10, page, 328);
  if (written.refusal != ZAGVIRK_SHEET_TOO_SHORT || written.needed != 329 || written.bytes != 0) return 4;
  written = zagvirk_write_page(t, list, 17, word, 4, run, 10, page, 340);
  if (written.refusal != ZAGVIRK_MACHINE_BROKEN || written.needed != 0 || written.bytes != 0) return 5;
  if (page[0] != 7 || page[327] != 7 || page[339] != 7) return 6;

  written = zagvirk_write_page(t, list, 18, long_word, ZAGVIRK_PAGE_LETTERS, long_run, ZAGVIRK_PAGE_ENTRIES, page, 340);
  if (written.refusal != ZAGVIRK_WORD_LETTER || written.needed != 0 || written.bytes != 0) return 7;
  written =
      zagvirk_write_page(t, list, 18, long_word, ZAGVIRK_PAGE_LETTERS + 1, long_run, ZAGVIRK_PAGE_ENTRIES, page, 340);
  if (written.refusal != ZAGVIRK_WORD_TOO_LONG || written.needed != 0 || written.bytes != 0) return 8;
  written =
      zagvirk_write_page(t, list, 18, long_word, ZAGVIRK_PAGE_LETTERS, long_run, ZAGVIRK_PAGE_ENTRIES + 1, page, 340);
  if (written.refusal != ZAGVIRK_WORD_TOO_LONG || written.needed != 0 || written.bytes != 0) return 9;
  if (page[0] != 7 || page[327] != 7 || page[339] != 7) return 10;

  written = zagvirk_write_page(t, list, 18, word, 4, run, 10, page, 340);
  if (written.refusal != 0 || written.needed != 0 || written.bytes != ZAGVIRK_PAGE_BYTES(10)) return 11;
  if (memcmp(page, text, 329) != 0 || page[329] != 7 || page[339] != 7) return 12;
  memset(page, 7, sizeof page);
  written = zagvirk_write_page(t, list, 18, word, 0, nothing, 6, page, ZAGVIRK_PAGE_BYTES(6));
  if (written.refusal != 0 || written.needed != 0 || written.bytes != ZAGVIRK_PAGE_BYTES(6)) return 13;
  if (memcmp(page, nothing_text, 205) != 0 || page[205] != 7) return 14;

  puts("pages are written right from C");
  return 0;
}
