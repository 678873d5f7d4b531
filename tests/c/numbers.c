/*
 * What include/upbit.h says of its structs and macros, against the static library: sizes and offsets, the room of an index,
 * and that each function can be called from C with nothing lent.
 */
#include <assert.h>
#include <stdio.h>

#include "upbit.h"

static_assert(sizeof(upbit_header) == 20 && offsetof(upbit_header, rows) == 0, "header");
static_assert(offsetof(upbit_header, issued) == 4 && offsetof(upbit_header, values) == 8, "header");
static_assert(offsetof(upbit_header, threshold) == 12 && offsetof(upbit_header, spacing) == 16, "header");
static_assert(sizeof(upbit_fence) == 8 && offsetof(upbit_fence, place) == 0 && offsetof(upbit_fence, first) == 4, "fence");
static_assert(sizeof(upbit_answer) == 16 && offsetof(upbit_answer, number) == 0, "answer");
static_assert(offsetof(upbit_answer, count) == 8, "answer");
static_assert(sizeof(upbit_changed) == 40 && offsetof(upbit_changed, header) == 0, "changed");
static_assert(offsetof(upbit_changed, answer) == 24, "changed");
static_assert(sizeof(upbit_row) == 24 && offsetof(upbit_row, number) == 0 && offsetof(upbit_row, live) == 4, "row");
static_assert(offsetof(upbit_row, value) == 8 && offsetof(upbit_row, opened) == 16, "row");
static_assert(sizeof(upbit_room) == 24 && offsetof(upbit_room, number) == 0, "room");
static_assert(offsetof(upbit_room, words) == 8 && offsetof(upbit_room, fences) == 16, "room");

enum { RANDOM_SHAPES = 100000 };

static unsigned checks;
static unsigned faults;

/* Counts a check, and names it where it does not hold. */
static void check(int holds, const char *what) {
    checks++;
    if (!holds) {
        faults++;
        printf("numbers.c: %s\n", what);
    }
}

static int within(uint32_t number, uint32_t most) {
    return number >= 1 && number <= most;
}

static void check_room(uint32_t rows, uint32_t values, uint32_t threshold, uint32_t spacing) {
    upbit_room room = upbit_room_for(rows, values, threshold, spacing);
    if (within(rows, UPBIT_MAX_ROWS) && within(values, UPBIT_MAX_VALUES) && within(threshold, UPBIT_MAX_THRESHOLD) &&
        within(spacing, UPBIT_MAX_SPACING)) {
        check(room.number == UPBIT_OK, "a shape within its limits is refused");
        check(room.words == UPBIT_WORDS(rows, values, threshold), "UPBIT_WORDS differs from upbit_room_for");
        check(room.fences == UPBIT_FENCES(rows, values, spacing), "UPBIT_FENCES differs from upbit_room_for");
    } else {
        check(room.number == UPBIT_BAD_HEADER, "a shape outside its limits is not refused");
        check(room.words == 0 && room.fences == 0, "a refused shape has room");
    }
}

/* The corner of a limit with this number: each side of both ends, and the far end of all numbers. */
static uint32_t corner(uint32_t number, uint32_t most) {
    const uint32_t corners[] = {0, 1, 2, most - 1, most, most + 1, UINT32_MAX};
    return corners[number % 7];
}

static void check_corners(void) {
    for (uint32_t all = 0; all < 7 * 7 * 7 * 7; all++)
        check_room(corner(all, UPBIT_MAX_ROWS), corner(all / 7, UPBIT_MAX_VALUES), corner(all / 49, UPBIT_MAX_THRESHOLD),
                   corner(all / 343, UPBIT_MAX_SPACING));
}

/* A number from 0 to a little above `most` (xorshift). */
static uint32_t any_number(uint32_t most) {
    static uint32_t state = 20260729;
    state ^= state << 13;
    state ^= state >> 17;
    state ^= state << 5;
    return state % (most + most / 50 + 2);
}

static void check_random_shapes(void) {
    for (int shape = 0; shape < RANDOM_SHAPES; shape++) {
        uint32_t rows = any_number(UPBIT_MAX_ROWS);
        uint32_t values = any_number(UPBIT_MAX_VALUES);
        uint32_t threshold = any_number(UPBIT_MAX_THRESHOLD);
        check_room(rows, values, threshold, any_number(UPBIT_MAX_SPACING));
    }
}

static int refused(upbit_changed changed, upbit_header header, uint32_t number) {
    return changed.answer.number == number && changed.answer.count == 0 && changed.header.rows == header.rows &&
           changed.header.issued == header.issued && changed.header.values == header.values &&
           changed.header.threshold == header.threshold && changed.header.spacing == header.spacing;
}

static int answered(upbit_answer answer, uint32_t number) {
    return answer.number == number && answer.count == 0;
}

/* Each call with slices of no elements and a header that asks for some: SMALL. */
static void check_nothing_lent(void) {
    const upbit_header header = {31, 1, 1, 1, 1};
    const upbit_header zeros = {0, 0, 0, 0, 0};
    uint32_t word = 7;
    upbit_fence fence = {7, 7};
    uint8_t byte = 7;

    check(refused(upbit_load(&word, 0, &fence, 0, &byte, 0, 31, 1, 1, 1), zeros, UPBIT_SMALL), "load");
    check(refused(upbit_insert(&word, 0, &fence, 0, header, 0), header, UPBIT_SMALL), "insert");
    check(refused(upbit_update(&word, 0, &fence, 0, header, 0, 0), header, UPBIT_SMALL), "update");
    check(refused(upbit_delete(&word, 0, &fence, 0, header, 0), header, UPBIT_SMALL), "delete");
    check(refused(upbit_merge(&word, 0, &fence, 0, header, 0), header, UPBIT_SMALL), "merge");
    upbit_row row = upbit_value(&word, 0, &fence, 0, header, 0);
    check(row.number == UPBIT_SMALL && row.live == 0 && row.value == 0 && row.opened == 0, "value");
    uint32_t out = 7;
    check(answered(upbit_query(&word, 0, &fence, 0, &out, 0, header, 0), UPBIT_SMALL), "query");
    check(answered(upbit_dump(&word, 0, &fence, 0, &byte, 0, header), UPBIT_SMALL), "dump");
    check(answered(upbit_audit(&word, 0, &fence, 0, header), UPBIT_SMALL), "audit");
    check(answered(upbit_pack(&byte, 0, &out, 0), UPBIT_OK), "pack");
    check(answered(upbit_unpack(&word, 0, &byte, 0, 0), UPBIT_OK), "unpack");
    check(word == 7 && out == 7 && byte == 7 && fence.place == 7 && fence.first == 7, "something behind an empty slice changed");
}

int main(void) {
    check_corners();
    check_random_shapes();
    check_nothing_lent();
    printf("numbers.c: %u checks, %u faults\n", checks, faults);
    return faults != 0;
}
