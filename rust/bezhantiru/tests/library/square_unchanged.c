/*
 * A square's run: a refused one changes no byte of the three lists or beside them. Then rows by hand.
 * For square_unchanged.rs.
 */
#include <inttypes.h>
#include <stdio.h>
#include <string.h>

#include "bezhantiru.h"

enum { SIDE = 33, ROOM = 40, BESIDE = 8 };

/* What one call is lent; the lists have as many numbers as `lengths` says. */
typedef struct {
    uint32_t square[SIDE][SIDE];
    uint32_t delay, buffer;
    const uint32_t *arrivals;
    size_t slots, lengths[3];
} call;

static const uint32_t zeros[4097], few[] = {5, 3, 1, 2, 6, 0, 1}, too_many[] = {5, 3, 1000001};
static uint32_t lists[3][BESIDE + ROOM + BESIDE];
static unsigned refused, accepted, changed;

static uint32_t run(const call *lent) {
    memset(lists, 0xa5, sizeof lists);
    return bezhantiru_square_run(lent->square, lent->delay, lent->buffer, lent->arrivals,
                                 lent->slots, lists[0] + BESIDE, lent->lengths[0],
                                 lists[1] + BESIDE, lent->lengths[1], lists[2] + BESIDE,
                                 lent->lengths[2]);
}

static int untouched(const uint32_t *numbers, size_t count) {
    for (size_t i = 0; i < count; i++)
        if (numbers[i] != UINT32_C(0xa5a5a5a5)) return 0;
    return 1;
}

static void refuse(const call *lent, uint32_t number) {
    refused += run(lent) == number;
    changed += !untouched(lists[0], sizeof lists / sizeof(uint32_t));
}

/* All of the lists are written, and nothing beside them. */
static void accept(const call *lent) {
    accepted += run(lent) == 0;
    for (int i = 0; i < 3; i++) {
        size_t length = lent->lengths[i];
        changed += !untouched(lists[i], BESIDE) ||
                   !untouched(lists[i] + BESIDE + length, ROOM - length + BESIDE);
        for (size_t slot = 0; slot < length; slot++)
            changed += untouched(lists[i] + BESIDE + slot, 1);
    }
}

/* Two packets a slot. */
static call good(uint32_t delay, const uint32_t *arrivals, size_t slots) {
    call lent = {{{0}}, delay, 9, arrivals, slots, {slots, slots, slots}};
    for (uint32_t s = 0; s < SIDE; s++)
        for (uint32_t t = s + 1; t < SIDE; t++)
            lent.square[s][t] = 2 * (t - s);
    return lent;
}

/* Each entry, with a delay that would be refused next; 561, 528 and 496 of them. */
static void refuse_entries(void) {
    for (int s = 0; s < SIDE; s++)
        for (int t = 0; t < SIDE; t++) {
            call lent = good(65, few, 7);
            if (t <= s) {
                lent.square[s][t] = UINT32_MAX;
                refuse(&lent, 19);
                continue;
            }
            lent.square[s][t] = 1000001;
            refuse(&lent, 3);
            if (t == s + 1) continue;
            lent.square[s][t] = lent.square[s][t - 1] - 1;
            refuse(&lent, 4);
        }
}

/* A slot more than there can be under each delay limit, and no slot where there can be none; 98. */
static void refuse_slots(void) {
    for (uint32_t delay = 0; delay <= 64; delay++) {
        call lent = good(delay, zeros, delay > 32 ? 0 : 33 - delay);
        refuse(&lent, 20);
    }
    for (size_t slots = 33; slots <= 64; slots++) {
        call lent = good(BEZHANTIRU_NO_DELAY, zeros, slots);
        refuse(&lent, 20);
    }
    call lent = good(0, zeros, 4097);
    refuse(&lent, 20);
}

/* Each list of each other length; 117 for each of 5 traces. */
static void refuse_lists(void) {
    for (size_t slots = 0; slots <= 28; slots += 7)
        for (int i = 0; i < 3; i++)
            for (size_t length = 0; length < ROOM; length++) {
                call lent = good(4, zeros, slots);
                if (length == slots) continue;
                lent.lengths[i] = length;
                refuse(&lent, 11);
            }
}

/* 68. */
static void refuse_rest(void) {
    for (uint32_t delay = 0; delay <= 64; delay++) {
        call lent = good(delay, zeros, 40);
        lent.buffer = 1000001;
        refuse(&lent, 7);
    }
    call delay = good(65, zeros, 40), both = good(BEZHANTIRU_NO_DELAY, zeros, 40);
    call count = good(4, too_many, 3);
    both.buffer = BEZHANTIRU_NO_BUFFER;
    refuse(&delay, 6);
    refuse(&both, 23);
    refuse(&count, 8);
}

static void print_list(const char *name, const uint32_t *numbers, size_t length) {
    printf("%s", name);
    for (size_t i = 0; i < length; i++) printf(" %" PRIu32, numbers[i]);
}

static void print_rows(const call *lent) {
    printf("number %" PRIu32, run(lent));
    print_list(", admitted", lists[0] + BESIDE, lent->lengths[0]);
    print_list(", dropped", lists[1] + BESIDE, lent->lengths[1]);
    print_list(", departed", lists[2] + BESIDE, lent->lengths[2]);
    printf("\n");
}

/* The cable link that stops for three slots; what it allows beyond slot 7 is not looked at. */
static call cable(uint32_t delay, uint32_t buffer, size_t slots) {
    static const uint32_t after[7][7] = {{2, 3, 5, 5, 5, 7, 9}, {2, 2, 2, 2, 5, 8}, {0, 0, 0, 3, 5},
                                         {0, 0, 3, 5},          {0, 3, 5},          {3, 5},
                                         {3}};
    call lent = good(delay, few, slots);
    lent.buffer = buffer;
    for (int s = 0; s < 7; s++)
        for (int t = s + 1; t < SIDE; t++)
            lent.square[s][t] = t <= 7 ? after[s][t - s - 1] : 1000000;
    return lent;
}

int main(void) {
    refuse_entries();
    refuse_slots();
    refuse_lists();
    refuse_rest();
    for (uint32_t delay = 0; delay <= 32; delay++) {
        call lent = good(delay, zeros, 32 - delay);
        accept(&lent);
    }
    call none = good(BEZHANTIRU_NO_DELAY, few, 7);
    accept(&none);
    printf("%u refused, %u accepted, %u changed\n", refused, accepted, changed);
    call by_buffer = cable(BEZHANTIRU_NO_DELAY, 4, 7), by_delay = cable(1, BEZHANTIRU_NO_BUFFER, 6);
    print_rows(&by_buffer);
    print_rows(&by_delay);
    return 0;
}
