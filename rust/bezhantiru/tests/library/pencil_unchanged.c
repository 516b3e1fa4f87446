/*
 * The list of short traces and the pencil version: a refused call changes no byte of a list or beside
 * it, an accepted one writes all of its lists and nothing beside them. Then lists by hand. For
 * pencil_unchanged.rs.
 */
#include <inttypes.h>
#include <stdio.h>
#include <string.h>

#include "bezhantiru.h"

enum { ROOM = 6 * 4096, BESIDE = 8, LISTS = 3, LONGEST = 4097 };

static uint32_t lists[LISTS][BESIDE + ROOM + BESIDE];
static unsigned refused, accepted, changed;

static int untouched(const uint32_t *numbers, size_t count) {
    for (size_t i = 0; i < count; i++)
        if (numbers[i] != UINT32_C(0xa5a5a5a5)) return 0;
    return 1;
}

/* One list is as long as told and all of it is written, or none of it. */
static void check_list(const uint32_t *list, size_t length, int written) {
    if (!written) length = 0;
    changed += !untouched(list, BESIDE) ||
               !untouched(list + BESIDE + length, ROOM - length + BESIDE);
    for (size_t i = 0; i < length; i++)
        changed += untouched(list + BESIDE + i, 1);
}

static void ask_traces(uint32_t slots, size_t length, uint32_t number) {
    memset(lists, 0xa5, sizeof lists);
    uint32_t found = bezhantiru_short_traces(slots, lists[0] + BESIDE, length);
    if (number == 0) accepted += found == 0;
    else refused += found == number;
    check_list(lists[0], length, found == 0);
}

/* What one pencil run is lent. */
typedef struct {
    const uint32_t *table;
    size_t entries;
    uint32_t delay, buffer;
    size_t slots, lengths[LISTS];
} call;

static const uint32_t row[] = {0, 2, 3}, first_not_zero[] = {1, 2}, too_large[] = {0, 1000001},
                      falls[] = {0, 3, 2};
static uint32_t arrivals[LONGEST] = {5, 0, 4, 0, 1};

static uint32_t run(const call *lent) {
    memset(lists, 0xa5, sizeof lists);
    return bezhantiru_pencil_run(lent->table, lent->entries, lent->delay, lent->buffer, arrivals,
                                 lent->slots, lists[0] + BESIDE, lent->lengths[0],
                                 lists[1] + BESIDE, lent->lengths[1], lists[2] + BESIDE,
                                 lent->lengths[2]);
}

static void ask_run(call lent, uint32_t number) {
    uint32_t found = run(&lent);
    if (number == 0) accepted += found == 0;
    else refused += found == number;
    for (int i = 0; i < LISTS; i++) check_list(lists[i], lent.lengths[i], found == 0);
}

static call good(size_t slots) {
    call lent = {row, 3, 1, 9, slots, {slots, slots, slots}};
    return lent;
}

/* Each refusal with all those after it in the order. */
static void refuse_in_order(size_t slots) {
    call lent = {row, 1, 65, 1000001, slots, {0, 0, 0}};
    arrivals[4] = 1000001;
    ask_run(lent, 1);
    lent.table = first_not_zero;
    lent.entries = 2;
    ask_run(lent, 2);
    lent.table = too_large;
    ask_run(lent, 3);
    lent.table = falls;
    lent.entries = 3;
    ask_run(lent, 4);
    lent.table = row;
    ask_run(lent, 6);
    lent.delay = BEZHANTIRU_NO_DELAY;
    ask_run(lent, 7);
    lent.buffer = BEZHANTIRU_NO_BUFFER;
    ask_run(lent, 23);
    lent.buffer = 9;
    ask_run(lent, 24);
    lent.slots = 5;
    ask_run(lent, 11);
    ask_run(good(5), 8);
    arrivals[4] = 1;
    ask_run(good(5), 0);
}

static void print_list(const char *name, const uint32_t *list, size_t length) {
    printf("%s", name);
    for (size_t i = 0; i < length; i++)
        printf(" %" PRIu32, list[BESIDE + i]);
}

static void print_rows(size_t slots) {
    call lent = good(slots);
    printf("number %" PRIu32, run(&lent));
    print_list(", admitted", lists[0], slots);
    print_list(", dropped", lists[1], slots);
    print_list(", departed", lists[2], slots);
    printf("\n");
}

int main(void) {
    size_t traces = 1;
    for (uint32_t slots = 0; slots <= 6; slots++, traces *= 4) {
        size_t length = slots * traces;
        ask_traces(slots, length, slots > 5 ? 24 : 0);
        if (length > 0) ask_traces(slots, length - 1, slots > 5 ? 24 : 11);
        if (length < ROOM) ask_traces(slots, length + 1, slots > 5 ? 24 : 11);
    }
    refuse_in_order(6);
    refuse_in_order(4096);
    refuse_in_order(LONGEST);
    for (int i = 0; i < LISTS; i++)
        for (size_t length = 0; length <= 5; length++) {
            call lent = good(4);
            lent.lengths[i] = length;
            ask_run(lent, length == 4 ? 0 : 11);
        }
    printf("%u refused, %u accepted, %u changed\n", refused, accepted, changed);
    ask_traces(2, 32, 0);
    print_list("two slots:", lists[0], 32);
    printf("\n");
    print_rows(0);
    print_rows(5);
    return 0;
}
