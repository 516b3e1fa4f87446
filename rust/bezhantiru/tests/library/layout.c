/* Prints the header's sizes, alignments and offsets, for layout.rs. */
#include "lines.h"

int main(void) {
    TYPE(bezhantiru_settings);
    FIELD(bezhantiru_settings, last);
    FIELD(bezhantiru_settings, delay);
    FIELD(bezhantiru_settings, buffer);
    FIELD(bezhantiru_settings, near_windows);
    TYPE(bezhantiru_regulator);
    FIELD(bezhantiru_regulator, settings);
    FIELD(bezhantiru_regulator, slots);
    FIELD(bezhantiru_regulator, admitted);
    FIELD(bezhantiru_regulator, form_peak);
    FIELD(bezhantiru_regulator, bench_peak);
    FIELD(bezhantiru_regulator, row);
    TYPE(bezhantiru_made);
    FIELD(bezhantiru_made, number);
    FIELD(bezhantiru_made, regulator);
    TYPE(bezhantiru_slot_row);
    FIELD(bezhantiru_slot_row, number);
    FIELD(bezhantiru_slot_row, held_before);
    FIELD(bezhantiru_slot_row, admitted);
    FIELD(bezhantiru_slot_row, dropped);
    FIELD(bezhantiru_slot_row, departed);
    TYPE(bezhantiru_preview_row);
    FIELD(bezhantiru_preview_row, number);
    FIELD(bezhantiru_preview_row, held_before);
    FIELD(bezhantiru_preview_row, admitted);
    FIELD(bezhantiru_preview_row, dropped);
    FIELD(bezhantiru_preview_row, departed);
    FIELD(bezhantiru_preview_row, headroom);
    TYPE(bezhantiru_bound);
    FIELD(bezhantiru_bound, number);
    FIELD(bezhantiru_bound, piece);
    FIELD(bezhantiru_bound, packets);
    TYPE(bezhantiru_part);
    FIELD(bezhantiru_part, number);
    FIELD(bezhantiru_part, from);
    FIELD(bezhantiru_part, bytes);
    printf("no delay: %llu\n", (unsigned long long)BEZHANTIRU_NO_DELAY);
    printf("no buffer: %llu\n", (unsigned long long)BEZHANTIRU_NO_BUFFER);
    return 0;
}
