/*
 * Previews of a lent regulator: none changes a byte of it, padding included, each answers what the
 * next slot then answers, and the headroom is what that slot admits out of 1,000,000; also of
 * regulators that nobody set up. For preview.rs.
 */
#include <stdio.h>
#include <string.h>

#include "bezhantiru.h"

static bezhantiru_regulator regulator;
static unsigned accepted, refused, changed, different;

static int fits(const bezhantiru_preview_row *seen, const bezhantiru_slot_row *row,
                uint64_t arrivals, uint64_t headroom) {
    uint64_t least = arrivals < headroom ? arrivals : headroom;
    return seen->number == row->number && seen->held_before == row->held_before &&
           seen->admitted == row->admitted && seen->dropped == row->dropped &&
           seen->departed == row->departed && seen->headroom == headroom &&
           (seen->number != 0 || seen->admitted == least);
}

/* The preview of a number, beside the slots of copies. */
static void look(uint64_t arrivals) {
    unsigned char before[sizeof regulator];
    memcpy(before, &regulator, sizeof before);
    bezhantiru_preview_row seen = bezhantiru_preview(&regulator, arrivals);
    changed += memcmp(before, &regulator, sizeof before) != 0;
    bezhantiru_regulator next = regulator, full = regulator;
    bezhantiru_slot_row row = bezhantiru_slot(&next, arrivals);
    bezhantiru_slot_row most = bezhantiru_slot_in_place(&full, 1000000);
    different += !fits(&seen, &row, arrivals, row.number == 0 ? most.admitted : 0);
    if (seen.number == 0) accepted++; else refused++;
}

static void look_at_all(uint64_t slot) {
    const uint64_t numbers[] = {0, slot % 9, 1000000, 1000001, UINT64_MAX - slot};
    for (int i = 0; i < 5; i++) look(numbers[i]);
}

/* A regulator that nobody set up, every byte of it alike, with few enough slots to take another. */
static void forge(unsigned byte) {
    memset(&regulator, (int)byte, sizeof regulator);
    look_at_all(byte);
    regulator.slots = byte;
    look_at_all(byte);
}

int main(void) {
    const uint32_t table[] = {0, 2, 3};
    for (unsigned byte = 0; byte < 256; byte++) forge(byte);
    memset(&regulator, 0xa5, sizeof regulator);
    regulator = bezhantiru_set_up(table, 3, 1, 9).regulator;
    for (uint64_t slot = 0; slot < 1000; slot++) {
        look_at_all(slot);
        bezhantiru_slot_in_place(&regulator, slot % 7);
    }
    while (regulator.slots < 1000000) bezhantiru_slot_in_place(&regulator, 1000000);
    look_at_all(3);
    printf("%u accepted, %u refused, %u changed, %u different\n", accepted, refused, changed,
           different);
    return 0;
}
