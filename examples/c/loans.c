/* The sheets of a small herbarium: which are in, out on loan or withdrawn. */
#include <stdio.h>

#include "upbit.h"

enum { IN, ON_LOAN, WITHDRAWN, VALUES };
enum { ROWS = 100, THRESHOLD = 4, SPACING = 2 };

static uint32_t words[UPBIT_WORDS(ROWS, VALUES, THRESHOLD)];
static upbit_fence fences[UPBIT_FENCES(ROWS, VALUES, SPACING)];
static const size_t words_length = sizeof words / sizeof words[0];
static const size_t fences_length = sizeof fences / sizeof fences[0];

static int print_loans(upbit_header header) {
    uint32_t list[UPBIT_GROUPS(ROWS)];
    uint8_t on_loan[ROWS];
    upbit_answer query = upbit_query(words, words_length, fences, fences_length, list, UPBIT_GROUPS(ROWS), header, ON_LOAN);
    upbit_answer rows = upbit_unpack(list, query.count, on_loan, ROWS, ROWS);
    for (size_t row = 0; row < rows.count; row++)
        if (on_loan[row])
            printf("sheet %zu is on loan\n", row);
    return query.number != UPBIT_OK || rows.number != UPBIT_OK;
}

int main(void) {
    const uint8_t column[] = {IN, ON_LOAN, IN, WITHDRAWN, UPBIT_DELETED, ON_LOAN};
    upbit_changed sheets = upbit_load(words, words_length, fences, fences_length, column, sizeof column,
                                      ROWS, VALUES, THRESHOLD, SPACING);
    sheets = upbit_update(words, words_length, fences, fences_length, sheets.header, 2, ON_LOAN);
    sheets = upbit_update(words, words_length, fences, fences_length, sheets.header, 1, IN);
    sheets = upbit_insert(words, words_length, fences, fences_length, sheets.header, ON_LOAN);
    printf("the new sheet is number %zu\n", sheets.answer.count);
    sheets = upbit_delete(words, words_length, fences, fences_length, sheets.header, 4);
    printf("deleting sheet 4 again is refused by number %u\n", sheets.answer.number);
    return print_loans(sheets.header);
}
