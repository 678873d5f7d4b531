/*
 * upbit: an updatable bitmap index over one column of bytes, kept in memory that the caller lends.
 *
 * The functions are proved: each ends, stays inside the memory lent to it and answers exactly what
 * docs/PROMISES.md says, for arbitrary words, records, bytes and numbers. So no caller has to check
 * anything first. What the proof cannot see is this file and the caller's side of it; the rules that
 * a caller keeps are these:
 *
 *   - A pointer and the length behind it name memory of the caller's that holds so many elements,
 *     aligned as its type asks. Where the length is 0 the pointer is not followed, but is not NULL.
 *   - Two slices of one call do not overlap where one of them is not const.
 *   - No other thread writes to lent memory during a call, nor reads what the call writes.
 *
 * Nothing is allocated, nothing is kept between calls, and there is no global state: an index is the
 * header, the words and the fences, and all three are the caller's. They may be copied, moved, stored
 * and lent again. A call may be made from any thread. It takes up to 24 KB of stack, upbit_audit 40 KB and
 * upbit_dump 130 KB.
 *
 * Link with libupbit.a (`tools/staticlib.sh`, for x86-64); of other libraries it needs C's memcpy and memset alone.
 */
#ifndef UPBIT_H
#define UPBIT_H

#include <stddef.h>
#include <stdint.h>

#ifdef __cplusplus
extern "C" {
#endif

/* ---- Numbers a call can give back. The lowest that applies is given; only for upbit_update and
 *      upbit_delete, damage that a whole check finds comes after UPBIT_GONE. ---- */
enum {
    UPBIT_OK = 0,         /* done */
    UPBIT_BAD_HEADER = 1, /* a header number is outside its limits */
    UPBIT_SMALL = 2,      /* fewer words or fences lent than upbit_room_for says */
    UPBIT_BAD_VALUE = 3,  /* a value that is not below `values`; for load a byte that is neither that nor 255; for pack a byte above 1 */
    UPBIT_NO_ROW = 4,     /* a row that is not below `issued` */
    UPBIT_FULL = 5,       /* an insert into a full index; a load of more than `rows` bytes; pack or unpack of more than 126,976 rows */
    UPBIT_DAMAGED = 6,    /* the index's memory is not what the calls left there */
    UPBIT_GONE = 7,       /* an update or a delete of a deleted row */
    UPBIT_OUT_SMALL = 8,  /* the output is shorter than the result */
    UPBIT_BAD_LIST = 9    /* unpack: not the canonical list of so many rows */
};

/* The limits of a header's numbers; each is at least 1, but for `issued`. */
#define UPBIT_MAX_ROWS 126976u
#define UPBIT_MAX_VALUES 64u
#define UPBIT_MAX_THRESHOLD 255u
#define UPBIT_MAX_SPACING 256u

/* The byte of a deleted row, in a column for upbit_load and in the output of upbit_dump. */
#define UPBIT_DELETED 255u

/* ---- An index: its header by value, its words and its fences. ---- */

/* What a change gives back is the header to use from then on. A header of zeros is no index's: every call refuses it. */
typedef struct upbit_header {
    uint32_t rows;      /* R, row capacity: 1 to 126,976 */
    uint32_t issued;    /* n, rows issued: 0 to R */
    uint32_t values;    /* d: 1 to 64 */
    uint32_t threshold; /* T, the most ones of an update list: 1 to 255 */
    uint32_t spacing;   /* G, groups from a fence to the next: 1 to 256 */
} upbit_header;

/* A fence: the place within a value list of the word that covers the fence's group, and the first group which that word covers. */
typedef struct upbit_fence {
    uint32_t place;
    uint32_t first;
} upbit_fence;

/* ---- Answers. ---- */

/* The number, and the words or bytes written or the row given: 0 when refused. */
typedef struct upbit_answer {
    uint32_t number;
    size_t count;
} upbit_answer;

/* What a change answers, and the header to use from now on: the one given where it is refused, and for upbit_load zeros. */
typedef struct upbit_changed {
    upbit_header header;
    upbit_answer answer;
} upbit_changed;

/* A row: the number; 1 if it is live, else 0; its value, 255 if it is deleted, 0 when refused; and the words opened, 0 when refused. */
typedef struct upbit_row {
    uint32_t number;
    uint32_t live;
    uint32_t value;
    size_t opened;
} upbit_row;

/* What an index needs: the number, UPBIT_BAD_HEADER if there is no such index, and the words and fences to lend, 0 when refused. */
typedef struct upbit_room {
    uint32_t number;
    size_t words;
    size_t fences;
} upbit_room;

/* The same as constants, for numbers within their limits: groups of 31 rows, words and fences to lend, words and bytes of an output. */
#define UPBIT_GROUPS(rows) (((size_t)(rows) + 30) / 31)
#define UPBIT_WORDS(rows, values, threshold) ((size_t)(values) * (UPBIT_GROUPS(rows) + 2 * (size_t)(threshold) + 3))
#define UPBIT_FENCES(rows, values, spacing) ((size_t)(values) * ((UPBIT_GROUPS(rows) + (size_t)(spacing) - 1) / (size_t)(spacing)))

/* How many words and fences to lend for R, d, T and G. Refuses: BAD_HEADER. */
upbit_room upbit_room_for(uint32_t rows, uint32_t values, uint32_t threshold, uint32_t spacing);

/* ---- Calls that change an index. A refusal changes no lent word, record or byte. Memory lent beyond
 *      what upbit_room_for says is never written. ---- */

/*
 * Loads a column of bytes, one a row: a value below `values`, or UPBIT_DELETED. Writes all lists and fences,
 * and gives the header of the index; what the memory held before does not matter.
 * Cost: two passes over the column, and one over the groups of each value.
 * Refuses, with a header of zeros: BAD_HEADER by the four numbers alone, SMALL, BAD_VALUE, FULL.
 */
upbit_changed upbit_load(uint32_t *words, size_t words_length, upbit_fence *fences, size_t fences_length,
                         const uint8_t *column, size_t column_length,
                         uint32_t rows, uint32_t values, uint32_t threshold, uint32_t spacing);

/*
 * Adds a row of a value; the count is the row's number, and the header has one row more.
 * Cost: upbit_value of a row, and the words of one value.
 * Refuses: BAD_HEADER, SMALL, BAD_VALUE, FULL, DAMAGED.
 */
upbit_changed upbit_insert(uint32_t *words, size_t words_length, upbit_fence *fences, size_t fences_length,
                           upbit_header header, uint32_t value);

/*
 * Gives a row another value. To the value that it has, it is accepted and changes nothing.
 * Cost: upbit_value of the row, and the words of two values.
 * Refuses: BAD_HEADER, SMALL, BAD_VALUE, NO_ROW, DAMAGED where the row is damaged, GONE, DAMAGED where a list is.
 */
upbit_changed upbit_update(uint32_t *words, size_t words_length, upbit_fence *fences, size_t fences_length,
                           upbit_header header, uint32_t row, uint32_t value);

/*
 * Deletes a row; its number is not used again.
 * Cost: upbit_value of the row, and the words of one value.
 * Refuses: BAD_HEADER, SMALL, NO_ROW, DAMAGED where the row is damaged, GONE, DAMAGED where a list is.
 */
upbit_changed upbit_delete(uint32_t *words, size_t words_length, upbit_fence *fences, size_t fences_length,
                           upbit_header header, uint32_t row);

/*
 * Merges a value's updates into its list, and makes its fences anew. On a sound index it changes no query, row or dump.
 * Cost: the words of one value.
 * Refuses: BAD_HEADER, SMALL, BAD_VALUE, DAMAGED.
 */
upbit_changed upbit_merge(uint32_t *words, size_t words_length, upbit_fence *fences, size_t fences_length,
                          upbit_header header, uint32_t value);

/* ---- Calls that change nothing of an index. An output past the result stays, and on a refusal all of it does. ---- */

/*
 * The state of a row, and the words opened to find it.
 * Cost: at most d x (G + 2T + 1) words opened, and d fences.
 * Refuses: BAD_HEADER, SMALL, NO_ROW, DAMAGED.
 */
upbit_row upbit_value(const uint32_t *words, size_t words_length, const upbit_fence *fences, size_t fences_length,
                      upbit_header header, uint32_t row);

/*
 * Writes the canonical list of a value's rows; the count is its length in words. UPBIT_GROUPS(rows) words are always room enough.
 * Cost: the words of one value, twice.
 * Refuses: BAD_HEADER, SMALL, BAD_VALUE, DAMAGED, OUT_SMALL.
 */
upbit_answer upbit_query(const uint32_t *words, size_t words_length, const upbit_fence *fences, size_t fences_length,
                         uint32_t *out, size_t out_length, upbit_header header, uint32_t value);

/*
 * Writes the column: for each row issued the byte of its value, or UPBIT_DELETED; the count is the number of rows.
 * Cost: each word of a value list about once, those of an update list from the first one on at each fence.
 * Refuses: BAD_HEADER, SMALL, DAMAGED, OUT_SMALL.
 */
upbit_answer upbit_dump(const uint32_t *words, size_t words_length, const upbit_fence *fences, size_t fences_length,
                        uint8_t *out, size_t out_length, upbit_header header);

/*
 * Whether the index is sound, in everything: UPBIT_OK or a refusal; the count is 0.
 * Cost: each word twice, each fence once.
 * Refuses: BAD_HEADER, SMALL, DAMAGED.
 */
upbit_answer upbit_audit(const uint32_t *words, size_t words_length, const upbit_fence *fences, size_t fences_length,
                         upbit_header header);

/* ---- Lists. Row r is bit 30 - (r mod 31) of group r div 31; a list has a word for a group that is mixed, and one for a run
 *      of equal groups: bit 31 set, bit 30 the rows' bit, bits 29 to 0 the number of groups. ---- */

/*
 * Writes the canonical list of some rows, a byte 0 or 1 each; the count is its length in words.
 * UPBIT_GROUPS(rows_length) words are always room enough.
 * Cost: each byte twice, each word once.
 * Refuses: BAD_VALUE, FULL, OUT_SMALL.
 */
upbit_answer upbit_pack(const uint8_t *rows, size_t rows_length, uint32_t *out, size_t out_length);

/*
 * Writes the rows of the canonical list for `length` rows, a byte 0 or 1 each; the count is `length`.
 * Cost: each word twice, each byte once.
 * Refuses: FULL, OUT_SMALL, BAD_LIST.
 */
upbit_answer upbit_unpack(const uint32_t *list, size_t list_length, uint8_t *out, size_t out_length, size_t length);

#ifdef __cplusplus
}
#endif

#endif
