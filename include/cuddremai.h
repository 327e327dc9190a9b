/* Cuddremai for C: link crates/cuddremai_c/out/libcuddremai_c.a, which `rt lib` in crates/cuddremai_c writes (x86-64 Linux).
 *
 * Every function takes every input and always ends. It answers 0, or the number of a refusal (docs/REFUSALS.md) and through
 * `place` its place; `place` is 0 on acceptance. A refusal leaves everything else that was lent as it was, and what is lent
 * past the answer keeps its contents.
 *
 * The caller owes what C cannot say: no pointer is NULL, also where its length is 0; each points to as many elements as its
 * length says, aligned; and nothing that a function may write overlaps anything else that is lent to the same call.
 *
 * No function keeps state, so calls in several threads need no lock. Closing and the sheet need 1.6 MB of stack, from a DIMACS text to
 * its sheet it is 1.75 MB and from an AIGER text 2 MB: give a thread 2.5 MB. */

#ifndef CUDDREMAI_H
#define CUDDREMAI_H

#include <stddef.h>
#include <stdint.h>

#ifdef __cplusplus
extern "C" {
#endif

#define CUDDREMAI_MAX_NETS 1024
#define CUDDREMAI_MAX_CLAUSES 4096
#define CUDDREMAI_MAX_ENTRIES 16384
#define CUDDREMAI_MAX_TEXT 65536
/* A literal row with so many entries holds the numbers of any DIMACS text, and one with so many those that any AIGER text makes. */
#define CUDDREMAI_ROW 32763
#define CUDDREMAI_AIGER_ROW 109222
/* Entries that the work row must have, and bytes that the buffer of a sheet must have. */
#define CUDDREMAI_WORK 16384
#define CUDDREMAI_SHEET 16384

/* Refusals (docs/REFUSALS.md); 0 is none of them. */
#define CUDDREMAI_TEXT_TOO_LONG 1
#define CUDDREMAI_HEADER 2
#define CUDDREMAI_WORD 3
#define CUDDREMAI_ROW_TOO_SHORT 4
#define CUDDREMAI_TOO_MANY_NETS 5
#define CUDDREMAI_TOO_MANY_CLAUSES 6
#define CUDDREMAI_TOO_MANY_ENTRIES 7
#define CUDDREMAI_LEADS_TOO_SHORT 8
#define CUDDREMAI_WORK_TOO_SHORT 9
#define CUDDREMAI_ENTRY_TOO_LARGE 10
#define CUDDREMAI_NOT_ENDED 11
#define CUDDREMAI_CLAUSE_COUNT 12
#define CUDDREMAI_BUFFER_TOO_SHORT 13
#define CUDDREMAI_TOO_MANY_ROUNDS 14
#define CUDDREMAI_AIGER_HEADER 15
#define CUDDREMAI_LATCHES_OR_OUTPUTS 16
#define CUDDREMAI_AIGER_LINE 17
#define CUDDREMAI_AND_OUTPUT 18

/* Verdicts. */
#define CUDDREMAI_CONTRADICTION 1
#define CUDDREMAI_SETTLED 2
#define CUDDREMAI_UNFINISHED 3

/* Lead codes: 0 is F, 1 is T, 2 times w is net w and 2 times w plus 1 its inverse. On contradiction every lead is this one. */
#define CUDDREMAI_NO_LEAD 4294967295u

typedef struct {
    uint32_t verdict;
    uint32_t rounds;
    uint32_t ands;
    uint32_t xors;
    uint32_t ites;
    uint32_t groups;
} cuddremai_summary;

/* Reads a DIMACS text: its numbers to the start of the literal row; V, C and how many numbers there are. */
uint32_t cuddremai_read(const uint8_t *text, size_t text_length, int32_t *row, size_t row_length, uint32_t *nets,
                        uint32_t *clauses, size_t *entries, size_t *place);

/* Reads an ASCII AIGER text (docs/FORMATS.md): the entries of its circuit's clauses to the start of the literal row; V, which is M, C and
 * how many entries there are. */
uint32_t cuddremai_read_aiger(const uint8_t *text, size_t text_length, int32_t *row, size_t row_length, uint32_t *nets,
                              uint32_t *clauses, size_t *entries, size_t *place);

/* Writes the list's DIMACS text at the buffer's start; how many bytes it has. */
uint32_t cuddremai_print(uint32_t nets, uint32_t clauses, const int32_t *row, size_t row_length, uint8_t *text,
                         size_t text_length, size_t *written, size_t *place);

/* Closes the list under a round limit: the lead of net v is entry v - 1 of the lead row, and the first CUDDREMAI_WORK entries of
 * the work row are left 0. From V + 1 up all limits answer alike. */
uint32_t cuddremai_close(uint32_t nets, uint32_t clauses, const int32_t *row, size_t row_length, uint32_t limit,
                         uint32_t *leads, size_t leads_length, uint32_t *work, size_t work_length,
                         cuddremai_summary *summary, size_t *place);

/* Closes the list and writes its sheet at the buffer's start; how many bytes it has. The rows are left as closing leaves them. */
uint32_t cuddremai_sheet(uint32_t nets, uint32_t clauses, const int32_t *row, size_t row_length, uint32_t limit,
                         uint32_t *leads, size_t leads_length, uint32_t *work, size_t work_length, uint8_t *text,
                         size_t text_length, size_t *written, size_t *place);

/* From a DIMACS text to its sheet under round limit V + 1, with rows of its own. */
uint32_t cuddremai_compare(const uint8_t *input, size_t input_length, uint8_t *text, size_t text_length, size_t *written,
                           size_t *place);

/* From an ASCII AIGER text to its sheet, likewise. */
uint32_t cuddremai_compare_aiger(const uint8_t *input, size_t input_length, uint8_t *text, size_t text_length,
                                 size_t *written, size_t *place);

#ifdef __cplusplus
}
#endif

#endif
