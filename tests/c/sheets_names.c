/* Each name of include/sheets.h with its number, from requests 11 and 14 of document 02: a name with another number does not
 * compile. C99 and C++17; tests/c/run sees that no name of the header is missing here. The two headers stand side by side. */
#include "../../include/sheets.h"
#include "../../include/pundaliket.h"

#define TIE(name, number) typedef char tied_##name[(name) == (number) ? 1 : -1]

TIE(SHEETS_OPEN, 256);
TIE(SHEETS_KEEP, 257);
TIE(SHEETS_CLOSE, 258);

TIE(SHEETS_ALREADY_OPEN, 20);
TIE(SHEETS_NONE_OPEN, 21);
TIE(SHEETS_BAD_SLOT, 22);
TIE(SHEETS_HALF_WORD, 23);
TIE(SHEETS_NOT_KEPT, 24);
TIE(SHEETS_LIST_FULL, 25);

/* the number, 64 lines of a serial and four words; open, a serial, which slots, four words */
TIE(SHEETS_BYTES, 1 + 64 * (4 + 4 * 4) + 1 + 4 + 1 + 4 * 4);
TIE(SHEETS_LINE_BYTES, 4 + 4 * 4);
TIE(SHEETS_MOST_LINES, 64);
TIE(SHEETS_REPLY_BYTES, 2 + 2 + 1);
TIE(SHEETS_STACK_BYTES, 2048);
TIE(SHEETS_AT_NUMBER, 0);
TIE(SHEETS_AT_LINES, 1);
TIE(SHEETS_AT_OPEN, 1 + 64 * 20);
TIE(SHEETS_AT_SERIAL, 1 + 64 * 20 + 1);
TIE(SHEETS_AT_KEPT, 1 + 64 * 20 + 1 + 4);
TIE(SHEETS_AT_WORDS, 1 + 64 * 20 + 1 + 4 + 1);

/* lines, serials, repeated, improper; the sign; the digits */
TIE(SHEETS_FIGURES_BYTES, 4 + 1 + 48);
TIE(SHEETS_SUM_DIGITS, 48);
TIE(SHEETS_AT_LINE_COUNT, 0);
TIE(SHEETS_AT_SERIALS, 1);
TIE(SHEETS_AT_REPEATED, 2);
TIE(SHEETS_AT_IMPROPER, 3);
TIE(SHEETS_AT_SIGN, 4);
TIE(SHEETS_AT_DIGITS, 5);
