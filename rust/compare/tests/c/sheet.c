/* Reads, writes and reads again the sheet of table T, also with its zeros left out. Returns 0 if every answer is right,
 * else the number of the first wrong one. */
#include "zagvirk.h"

#include <stdio.h>
#include <string.h>

static const char text[] =
    "    3    2    6\n    0    5\n    1    0\n    2   10\n    0    0    1\n    1    0    2\n    1    1    1\n"
    "    1    2    1\n    2    1    2\n    2    2    2\n";
static const char blank[] =
    "    3    2    6\n         5\n    1     \n    2   10\n              1\n    1         2\n    1    1    1\n"
    "    1    2    1\n    2    1    2\n    2    2    2\n";
static const uint16_t expected[18] = {0, 0, 1, 1, 0, 2, 1, 1, 1, 1, 2, 1, 2, 1, 2, 2, 2, 2};

int main(void) {
  uint16_t list[20];
  uint8_t sheet[150];
  zagvirk_sheet_read read;
  zagvirk_sheet_written written;

  memset(list, 7, sizeof list);
  memset(sheet, 7, sizeof sheet);
  read = zagvirk_read_sheet((const uint8_t *)text, 145, list, 17);
  if (read.refusal != ZAGVIRK_LIST_TOO_SHORT || read.needed != 18 || read.machine.states != 0) return 1;
  if (list[0] != 0x0707) return 2;
  read = zagvirk_read_sheet((const uint8_t *)text, 144, list, 20);
  if (read.refusal != ZAGVIRK_LINE_CUT_SHORT || read.needed != 0 || list[0] != 0x0707) return 3;
  read = zagvirk_read_sheet((const uint8_t *)text, 145, list, 20);
  if (read.refusal != 0 || read.needed != 0) return 4;
  if (read.machine.states != 3 || read.machine.letters != 2 || read.machine.transitions != 6) return 5;
  if (read.machine.marks[0] != 5 || read.machine.marks[1] != 0 || read.machine.marks[2] != 10) return 6;
  if (memcmp(list, expected, sizeof expected) != 0 || list[18] != 0x0707) return 7;

  written = zagvirk_write_sheet(read.machine, list, 20, sheet, 144);
  if (written.refusal != ZAGVIRK_SHEET_TOO_SHORT || written.needed != 145 || written.bytes != 0) return 8;
  if (sheet[0] != 7) return 8;
  written = zagvirk_write_sheet(read.machine, list, 20, sheet, 150);
  if (written.refusal != 0 || written.bytes != 145) return 9;
  if (memcmp(sheet, text, 145) != 0 || sheet[145] != 7) return 10;
  written = zagvirk_write_sheet(read.machine, list, 17, sheet, 150);
  if (written.refusal != ZAGVIRK_MACHINE_BROKEN || written.bytes != 0) return 11;

  memset(list, 7, sizeof list);
  memset(sheet, 7, sizeof sheet);
  read = zagvirk_read_sheet((const uint8_t *)blank, 145, list, 20);
  if (read.refusal != 0 || memcmp(list, expected, sizeof expected) != 0 || list[18] != 0x0707) return 12;
  written = zagvirk_write_sheet(read.machine, list, 20, sheet, 150);
  if (written.refusal != 0 || written.bytes != 145) return 13;
  if (memcmp(sheet, text, 145) != 0 || sheet[145] != 7) return 14;

  puts("sheets are read and written right from C");
  return 0;
}
