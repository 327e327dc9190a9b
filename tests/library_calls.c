/* Calls each function of the library for C, accepted and refused, and looks at the answers and at what was lent.
 * Prints each check that fails, and last how many passed and failed; exit status 1 if one failed. */

#include <cuddremai.h>
#include <stdio.h>
#include <string.h>

static unsigned passed, failed;

static void check(int holds, int line, const char *what)
{
    if (holds) {
        passed += 1;
    } else {
        failed += 1;
        printf("line %d fails: %s\n", line, what);
    }
}

#define CHECK(x) check((x), __LINE__, #x)

static const char two_ands[] = "p cnf 4 6\n-3 1 0 -3 2 0 3 -1 -2 0\n-4 1 0 -4 2 0 4 -1 -2 0\n";
static const int32_t entries_of_two_ands[] = {-3, 1, 0, -3, 2, 0, 3, -1, -2, 0, -4, 1, 0, -4, 2, 0, 4, -1, -2, 0};
static const char printed_two_ands[] = "p cnf 4 6\n-3 1 0\n-3 2 0\n3 -1 -2 0\n-4 1 0\n-4 2 0\n4 -1 -2 0\n";
static const char sheet_of_two_ands[] =
    "verdict,rounds,variables,ands,xors,ites,groups\nsettled,1,4,2,0,0,3\nnet,lead\n1,1\n2,2\n3,3\n4,3\n";

enum { ENTRIES = 20 };

/* Of n3 = n1 AND n2 and n4 = n3 AND true a clause is left out, and a literal is dropped; the output is the inverse of n4. */
static const char circuit[] = "aag 4 2 0 1 2\n2\n4\n9\n6 2 4\n8 6 1\nc\n";
static const int32_t entries_of_circuit[] = {-3, 1, 0, -3, 2, 0, 3, -1, -2, 0, -4, 3, 0, 4, -3, 0, -4, 0};
static const char sheet_of_circuit[] =
    "verdict,rounds,variables,ands,xors,ites,groups\nsettled,1,4,1,0,0,2\nnet,lead\n1,1\n2,2\n3,F\n4,F\n";

enum { CIRCUIT_ENTRIES = 18 };

static int32_t row[CUDDREMAI_AIGER_ROW];
static uint32_t leads[CUDDREMAI_MAX_NETS];
static uint32_t work[CUDDREMAI_WORK + 1];
static uint8_t text[CUDDREMAI_SHEET];

/* Whether all bytes from `from` on are as `fresh` left them. */
static int is_fresh(const void *memory, size_t from, size_t size)
{
    const unsigned char *bytes = memory;
    for (size_t i = from; i < size; i++)
        if (bytes[i] != 0x5a)
            return 0;
    return 1;
}

static void fresh(void)
{
    memset(row, 0x5a, sizeof row);
    memset(leads, 0x5a, sizeof leads);
    memset(work, 0x5a, sizeof work);
    memset(text, 0x5a, sizeof text);
}

static void reading(void)
{
    const uint8_t *input = (const uint8_t *)two_ands;
    uint32_t nets = 7, clauses = 7;
    size_t entries = 7, place = 7;

    fresh();
    CHECK(cuddremai_read(input, strlen(two_ands), row, CUDDREMAI_ROW, &nets, &clauses, &entries, &place) == 0);
    CHECK(nets == 4 && clauses == 6 && entries == ENTRIES && place == 0);
    CHECK(memcmp(row, entries_of_two_ands, sizeof entries_of_two_ands) == 0);
    CHECK(is_fresh(row, sizeof entries_of_two_ands, sizeof row));

    fresh();
    nets = clauses = 7;
    entries = place = 7;
    CHECK(cuddremai_read(input, strlen(two_ands), row, ENTRIES - 1, &nets, &clauses, &entries, &place) == CUDDREMAI_ROW_TOO_SHORT);
    CHECK(place == 0);
    CHECK(cuddremai_read((const uint8_t *)"p cnf 1 1\n-0 0", 14, row, CUDDREMAI_ROW, &nets, &clauses, &entries, &place) == CUDDREMAI_WORD);
    CHECK(place == 10);
    CHECK(nets == 7 && clauses == 7 && entries == 7 && is_fresh(row, 0, sizeof row));
}

static void reading_aiger(void)
{
    const uint8_t *input = (const uint8_t *)circuit;
    uint32_t nets = 7, clauses = 7;
    size_t entries = 7, place = 7;

    fresh();
    CHECK(cuddremai_read_aiger(input, strlen(circuit), row, CUDDREMAI_AIGER_ROW, &nets, &clauses, &entries, &place) == 0);
    CHECK(nets == 4 && clauses == 6 && entries == CIRCUIT_ENTRIES && place == 0);
    CHECK(memcmp(row, entries_of_circuit, sizeof entries_of_circuit) == 0);
    CHECK(is_fresh(row, sizeof entries_of_circuit, sizeof row));

    fresh();
    nets = clauses = 7;
    entries = place = 7;
    CHECK(cuddremai_read_aiger(input, strlen(circuit), row, CIRCUIT_ENTRIES - 1, &nets, &clauses, &entries, &place) ==
          CUDDREMAI_ROW_TOO_SHORT);
    CHECK(place == 0);
    CHECK(cuddremai_read_aiger((const uint8_t *)two_ands, strlen(two_ands), row, CUDDREMAI_AIGER_ROW, &nets, &clauses, &entries,
                               &place) == CUDDREMAI_AIGER_HEADER);
    CHECK(place == 0);
    CHECK(cuddremai_read_aiger((const uint8_t *)"aag 1 1 0 2 0\n", 14, row, CUDDREMAI_AIGER_ROW, &nets, &clauses, &entries, &place) ==
          CUDDREMAI_LATCHES_OR_OUTPUTS);
    CHECK(place == 10);
    CHECK(cuddremai_read_aiger(input, 14, row, CUDDREMAI_AIGER_ROW, &nets, &clauses, &entries, &place) == CUDDREMAI_AIGER_LINE);
    CHECK(place == 14);
    CHECK(cuddremai_read_aiger((const uint8_t *)"aag 2 1 0 1 1\n2\n2\n2 1 1\n", 24, row, CUDDREMAI_AIGER_ROW, &nets, &clauses,
                               &entries, &place) == CUDDREMAI_AND_OUTPUT);
    CHECK(place == 18);
    CHECK(nets == 7 && clauses == 7 && entries == 7 && is_fresh(row, 0, sizeof row));
}

static void printing(void)
{
    size_t length = strlen(printed_two_ands), written = 7, place = 7;

    fresh();
    CHECK(cuddremai_print(4, 6, entries_of_two_ands, ENTRIES, text, length, &written, &place) == 0);
    CHECK(written == length && place == 0);
    CHECK(memcmp(text, printed_two_ands, length) == 0 && is_fresh(text, length, sizeof text));

    fresh();
    written = place = 7;
    CHECK(cuddremai_print(4, 6, entries_of_two_ands, ENTRIES, text, length - 1, &written, &place) == CUDDREMAI_BUFFER_TOO_SHORT);
    CHECK(place == 0);
    CHECK(cuddremai_print(3, 6, entries_of_two_ands, ENTRIES, text, length, &written, &place) == CUDDREMAI_ENTRY_TOO_LARGE);
    CHECK(place == 10);
    CHECK(written == 7 && is_fresh(text, 0, sizeof text));
}

static void closing(void)
{
    static const int32_t both[] = {1, 0, -1, 0};
    static const uint32_t expected[] = {2, 4, 6, 6};
    cuddremai_summary s, kept;
    size_t place = 7;

    fresh();
    CHECK(cuddremai_close(4, 6, entries_of_two_ands, ENTRIES, 5, leads, 5, work, CUDDREMAI_WORK + 1, &s, &place) == 0);
    CHECK(s.verdict == CUDDREMAI_SETTLED && s.rounds == 1 && s.ands == 2 && s.xors == 0 && s.ites == 0 && s.groups == 3);
    CHECK(place == 0 && memcmp(leads, expected, sizeof expected) == 0 && is_fresh(leads, sizeof expected, sizeof leads));
    CHECK(work[0] == 0 && work[CUDDREMAI_WORK - 1] == 0 && is_fresh(work, 4 * CUDDREMAI_WORK, sizeof work));
    CHECK(cuddremai_close(4, 6, entries_of_two_ands, ENTRIES, 0, leads, 4, work, CUDDREMAI_WORK, &s, &place) == 0);
    CHECK(s.verdict == CUDDREMAI_UNFINISHED && s.rounds == 0 && s.groups == 4);
    CHECK(cuddremai_close(1, 2, both, 4, 2, leads, 1, work, CUDDREMAI_WORK, &s, &place) == 0);
    CHECK(s.verdict == CUDDREMAI_CONTRADICTION && s.rounds == 1 && s.groups == 0 && leads[0] == CUDDREMAI_NO_LEAD);

    fresh();
    memset(&s, 0x5a, sizeof s);
    kept = s;
    CHECK(cuddremai_close(4, 6, entries_of_two_ands, ENTRIES, 5, leads, 3, work, CUDDREMAI_WORK, &s, &place) == CUDDREMAI_LEADS_TOO_SHORT);
    CHECK(cuddremai_close(4, 6, entries_of_two_ands, ENTRIES, 5, leads, 4, work, CUDDREMAI_WORK - 1, &s, &place) == CUDDREMAI_WORK_TOO_SHORT);
    CHECK(memcmp(&s, &kept, sizeof s) == 0 && is_fresh(leads, 0, sizeof leads) && is_fresh(work, 0, sizeof work));
}

static void sheets(void)
{
    const uint8_t *input = (const uint8_t *)two_ands;
    size_t length = strlen(sheet_of_two_ands), written = 7, place = 7;

    fresh();
    CHECK(cuddremai_sheet(4, 6, entries_of_two_ands, ENTRIES, 5, leads, 4, work, CUDDREMAI_WORK, text, CUDDREMAI_SHEET - 1,
                          &written, &place) == 13);
    CHECK(written == 7 && place == 0 && is_fresh(text, 0, sizeof text) && is_fresh(leads, 0, sizeof leads));
    CHECK(cuddremai_sheet(4, 6, entries_of_two_ands, ENTRIES, 5, leads, 4, work, CUDDREMAI_WORK, text, CUDDREMAI_SHEET, &written,
                          &place) == 0);
    CHECK(written == length && memcmp(text, sheet_of_two_ands, length) == 0 && is_fresh(text, length, sizeof text));
    CHECK(leads[3] == 6 && work[0] == 0);

    fresh();
    written = place = 7;
    CHECK(cuddremai_compare(input, 9, text, CUDDREMAI_SHEET, &written, &place) == CUDDREMAI_CLAUSE_COUNT);
    CHECK(cuddremai_compare(input, 0, text, CUDDREMAI_SHEET, &written, &place) == CUDDREMAI_HEADER);
    CHECK(written == 7 && place == 0 && is_fresh(text, 0, sizeof text));
    CHECK(cuddremai_compare(input, strlen(two_ands), text, CUDDREMAI_SHEET, &written, &place) == 0);
    CHECK(written == length && memcmp(text, sheet_of_two_ands, length) == 0 && is_fresh(text, length, sizeof text));
}

static void sheets_of_circuits(void)
{
    const uint8_t *input = (const uint8_t *)circuit;
    size_t length = strlen(sheet_of_circuit), written = 7, place = 7;

    fresh();
    CHECK(cuddremai_compare_aiger(input, 16, text, CUDDREMAI_SHEET, &written, &place) == CUDDREMAI_AIGER_LINE);
    CHECK(place == 16);
    CHECK(cuddremai_compare_aiger(input, strlen(circuit), text, CUDDREMAI_SHEET - 1, &written, &place) == CUDDREMAI_BUFFER_TOO_SHORT);
    CHECK(written == 7 && place == 0 && is_fresh(text, 0, sizeof text));
    CHECK(cuddremai_compare_aiger(input, strlen(circuit), text, CUDDREMAI_SHEET, &written, &place) == 0);
    CHECK(written == length && place == 0);
    CHECK(memcmp(text, sheet_of_circuit, length) == 0 && is_fresh(text, length, sizeof text));
}

int main(void)
{
    reading();
    reading_aiger();
    printing();
    closing();
    sheets();
    sheets_of_circuits();
    printf("%u passed, %u failed\n", passed, failed);
    return failed != 0;
}
