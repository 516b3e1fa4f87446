/*
 * The trace that loses most: a refused call changes no byte of the list or beside it and tells no
 * loss, an accepted one writes all of the list and nothing beside it. Then traces by hand. For
 * worst_unchanged.rs.
 */
#include <inttypes.h>
#include <stdio.h>
#include <string.h>

#include "bezhantiru.h"

enum { ROOM = 4097, BESIDE = 8 };

/* What one call is lent; the list has `length` numbers. */
typedef struct {
    const uint32_t *table;
    size_t entries;
    uint32_t delay, buffer, slots, most_in_slot, most_in_all;
    size_t length;
} call;

static const uint32_t row[] = {0, 2, 3}, first_not_zero[] = {1, 2}, too_large[] = {0, 1000001},
                      falls[] = {0, 3, 2};
static const call good = {row, 3, 1, 9, 4, 5, 12, 4};

static uint32_t list[BESIDE + ROOM + BESIDE];
static unsigned refused, accepted, wrong, changed;

static bezhantiru_worst find(const call *lent) {
    memset(list, 0xa5, sizeof list);
    return bezhantiru_worst_trace(lent->table, lent->entries, lent->delay, lent->buffer,
                                  lent->slots, lent->most_in_slot, lent->most_in_all,
                                  list + BESIDE, lent->length);
}

static int untouched(const uint32_t *numbers, size_t count) {
    for (size_t i = 0; i < count; i++)
        if (numbers[i] != UINT32_C(0xa5a5a5a5)) return 0;
    return 1;
}

static void refuse(call lent, uint32_t number) {
    bezhantiru_worst worst = find(&lent);
    refused += worst.number == number;
    wrong += worst.number != number || worst.loss != 0;
    changed += !untouched(list, sizeof list / sizeof list[0]);
}

static void accept(call lent) {
    bezhantiru_worst worst = find(&lent);
    accepted += worst.number == 0;
    changed += !untouched(list, BESIDE) ||
               !untouched(list + BESIDE + lent.length, ROOM - lent.length + BESIDE);
    for (size_t slot = 0; slot < lent.length; slot++)
        changed += untouched(list + BESIDE + slot, 1);
}

/* Each refusal with all those after it in the order. */
static void refuse_in_order(void) {
    call lent = {row, 1, 65, 1000001, 4097, 1000001, 12, 0};
    refuse(lent, 1);
    lent.table = first_not_zero;
    lent.entries = 2;
    refuse(lent, 2);
    lent.table = too_large;
    refuse(lent, 3);
    lent.table = falls;
    lent.entries = 3;
    refuse(lent, 4);
    lent.table = row;
    refuse(lent, 6);
    lent.delay = BEZHANTIRU_NO_DELAY;
    refuse(lent, 7);
    lent.buffer = BEZHANTIRU_NO_BUFFER;
    refuse(lent, 23);
    lent.buffer = 9;
    refuse(lent, 10);
    lent.slots = 4096;
    refuse(lent, 11);
    lent.length = 4096;
    refuse(lent, 8);
    lent.most_in_slot = 1000000;
    accept(lent);
}

static void print_worst(call lent) {
    bezhantiru_worst worst = find(&lent);
    printf("number %" PRIu32 ", loss %" PRIu32 ", trace", worst.number, worst.loss);
    for (size_t slot = 0; slot < lent.length; slot++)
        printf(" %" PRIu32, list[BESIDE + slot]);
    printf("\n");
}

int main(void) {
    refuse_in_order();
    for (size_t length = 0; length <= ROOM; length++) {
        call lent = good;
        lent.length = length;
        if (length != lent.slots) refuse(lent, 11);
    }
    for (uint32_t slots = 0; slots <= 64; slots++) {
        call lent = good;
        lent.length = lent.slots = slots;
        accept(lent);
        lent.most_in_slot = 1000001 + slots;
        refuse(lent, 8);
    }
    printf("%u refused, %u accepted, %u wrong, %u changed\n", refused, accepted, wrong, changed);
    call lent = good;
    print_worst(lent);
    lent.most_in_all = UINT32_MAX;
    print_worst(lent);
    lent.most_in_slot = 2;
    lent.most_in_all = 3;
    print_worst(lent);
    lent.length = lent.slots = 0;
    print_worst(lent);
    return 0;
}
