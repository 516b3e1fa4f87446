/*
 * Both slots of a lent regulator, side by side: refused ones change no byte of it, padding included,
 * and accepted ones leave the same numbers, also in regulators that nobody set up. For
 * unchanged.rs.
 */
#include <stdio.h>
#include <string.h>

#include "bezhantiru.h"

typedef bezhantiru_slot_row slot_function(bezhantiru_regulator *, uint64_t);

static slot_function *const slots[2] = {bezhantiru_slot, bezhantiru_slot_in_place};
static bezhantiru_regulator regulators[2];
static unsigned refused, changed, different;

static int same_settings(const bezhantiru_settings *a, const bezhantiru_settings *b) {
    return a->last == b->last && a->delay == b->delay && a->buffer == b->buffer &&
           memcmp(a->near_windows, b->near_windows, sizeof a->near_windows) == 0;
}

static int same_regulator(const bezhantiru_regulator *a, const bezhantiru_regulator *b) {
    return same_settings(&a->settings, &b->settings) && a->slots == b->slots &&
           a->admitted == b->admitted && a->form_peak == b->form_peak &&
           a->bench_peak == b->bench_peak && memcmp(a->row, b->row, sizeof a->row) == 0;
}

static int same_row(const bezhantiru_slot_row *a, const bezhantiru_slot_row *b) {
    return a->number == b->number && a->held_before == b->held_before &&
           a->admitted == b->admitted && a->dropped == b->dropped && a->departed == b->departed;
}

/* A call that has to be accepted, of both: the same answer and the same regulator. */
static void accept(uint64_t arrivals) {
    bezhantiru_slot_row rows[2];
    for (int i = 0; i < 2; i++) rows[i] = slots[i](&regulators[i], arrivals);
    different += rows[0].number != 0 || !same_row(&rows[0], &rows[1]) ||
                 !same_regulator(&regulators[0], &regulators[1]);
}

/* A call that both have to refuse with `number`; every byte is compared before and after. */
static void refuse(uint64_t arrivals, uint32_t number) {
    for (int i = 0; i < 2; i++) {
        unsigned char before[sizeof regulators[i]];
        memcpy(before, &regulators[i], sizeof before);
        bezhantiru_slot_row wanted = {number, 0, 0, 0, 0};
        bezhantiru_slot_row row = slots[i](&regulators[i], arrivals);
        refused += same_row(&row, &wanted);
        changed += memcmp(before, &regulators[i], sizeof before) != 0;
    }
}

/* Regulators that nobody set up, every byte of them alike, with few enough slots to take another. */
static void forge(unsigned byte) {
    memset(regulators, (int)byte, sizeof regulators);
    regulators[0].slots = regulators[1].slots = byte;
    accept(byte);
    accept(1000000);
    refuse(1000001, 8);
}

int main(void) {
    const uint32_t table[] = {0, 2, 3};
    for (unsigned byte = 0; byte < 256; byte++) forge(byte);
    memset(regulators, 0xa5, sizeof regulators);
    for (int i = 0; i < 2; i++) regulators[i] = bezhantiru_set_up(table, 3, 1, 9).regulator;
    for (uint64_t slot = 0; slot < 1000; slot++) {
        refuse(1000001 + slot, 8);
        refuse(UINT64_MAX - slot, 8);
        accept(slot % 7);
    }
    while (regulators[0].slots < 1000000) accept(1000000);
    for (uint64_t slot = 0; slot < 1000; slot++) {
        refuse(slot, 9);
        refuse(1000001 + slot, 8);
    }
    printf("%u refused, %u changed, %u different\n", refused, changed, different);
    return 0;
}
