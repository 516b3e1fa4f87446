/*
 * Prints both fills, the peaks of a few slots, the part of two files and the envelope with its first
 * piece, for readers.rs.
 */
#include <inttypes.h>
#include <stdio.h>

#include "bezhantiru.h"

static void print_fills(uint64_t held_before, uint64_t admitted, uint64_t departed) {
    printf("form %" PRIu64 ", bench %" PRIu64 "\n",
           bezhantiru_form_fill(held_before, admitted, departed),
           bezhantiru_bench_fill(held_before, admitted));
}

static void print_part(const uint8_t *file, size_t length) {
    bezhantiru_part part = bezhantiru_counts_part(file, length);
    printf("number %" PRIu32 ", %" PRIu64 " bytes from %" PRIu64 "\n", part.number, part.bytes,
           part.from);
}

static void print_bound(const uint32_t *table, size_t length, uint32_t window) {
    bezhantiru_bound bound = bezhantiru_envelope(table, length, window);
    printf("number %" PRIu32 ", piece %" PRIu32 ", packets %" PRIu64 "\n", bound.number, bound.piece,
           bound.packets);
}

int main(void) {
    print_fills(3, 4, 2);
    print_fills(3, 4, 8);
    print_fills(UINT64_MAX, 1, 2);
    print_fills(UINT64_MAX, UINT64_MAX, 0);

    /* Document 01's row with both limits none, with a buffer limit that drops nothing; a refused
     * slot in between. */
    const uint32_t table[] = {0, 2, 3};
    const uint64_t arrivals[] = {5, 1000001, 0, 4};
    bezhantiru_regulator regulator =
        bezhantiru_set_up(table, 3, BEZHANTIRU_NO_DELAY, 9).regulator;
    for (int i = 0; i < 4; i++) {
        bezhantiru_slot_row row = bezhantiru_slot(&regulator, arrivals[i]);
        printf("number %" PRIu32 ", held before %" PRIu64 ", peaks %" PRIu64 " and %" PRIu64 "\n",
               row.number, row.held_before, regulator.form_peak, regulator.bench_peak);
    }

    /* L 1, T 4, m 1, d 0, q 9, table 0,2, 5 packets in slot 3. */
    const uint8_t file[] = {1, 0, 0, 0, 4, 0, 0, 0, 1, 0, 0, 0, 0, 0, 0, 0, 9, 0,
                            0, 0, 0, 0, 0, 0, 2, 0, 0, 0, 3, 0, 0, 0, 5, 0, 0, 0};
    print_part(file, sizeof file);
    print_part(file, sizeof file - 1);

    /* Document 02's two tables, window 0, the last window, and the first beyond it. */
    const uint32_t other[] = {0, 2, 5};
    print_bound(table, 3, 4);
    print_bound(other, 3, 2);
    print_bound(table, 3, 0);
    print_bound(table, 3, 4160);
    print_bound(table, 3, 4161);
    print_bound(table, 1, 4161);
    return 0;
}
