/* Reads DIMACS or AIGER text from standard input and prints its sheet, step by step: read, close and write.
 *
 *     (cd crates/cuddremai_c && rt lib)
 *     cc -Iinclude examples/c/sheet.c crates/cuddremai_c/out/libcuddremai_c.a -o crates/cuddremai_c/out/sheet
 *     crates/cuddremai_c/out/sheet < examples/two_ands.cnf
 */

#include <cuddremai.h>
#include <stdio.h>
#include <string.h>

/* One byte more than a text may have, so that a longer one is refused and not cut short. */
static uint8_t input[CUDDREMAI_MAX_TEXT + 1];
/* Long enough for both kinds of text. */
static int32_t row[CUDDREMAI_AIGER_ROW];
static uint32_t leads[CUDDREMAI_MAX_NETS];
static uint32_t work[CUDDREMAI_WORK];
static uint8_t text[CUDDREMAI_SHEET];

static int is_aiger(size_t length)
{
    return length >= 4 && memcmp(input, "aag ", 4) == 0;
}

static int refuse(uint32_t number, size_t place)
{
    printf("refusal,place\n%u,%zu\n", (unsigned)number, place);
    return 1;
}

int main(void)
{
    uint32_t nets, clauses, number;
    size_t entries, written, place;
    size_t length = fread(input, 1, sizeof input, stdin);

    if (is_aiger(length))
        number = cuddremai_read_aiger(input, length, row, CUDDREMAI_AIGER_ROW, &nets, &clauses, &entries, &place);
    else
        number = cuddremai_read(input, length, row, CUDDREMAI_AIGER_ROW, &nets, &clauses, &entries, &place);
    if (number != 0)
        return refuse(number, place);
    number = cuddremai_sheet(nets, clauses, row, entries, nets + 1, leads, CUDDREMAI_MAX_NETS, work, CUDDREMAI_WORK, text,
                             sizeof text, &written, &place);
    if (number != 0)
        return refuse(number, place);
    return fwrite(text, 1, written, stdout) == written ? 0 : 2;
}
