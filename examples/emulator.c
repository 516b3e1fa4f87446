/*
 * An emulator's loop in C: reads one stream file, feeds its slots to the regulator one by one, and
 * prints the table of document 01, or the word refused and the number. The library judges the file.
 *
 *     emulator FILE        or        emulator < FILE
 */
#include <inttypes.h>
#include <stdbool.h>
#include <stdio.h>

#include "bezhantiru.h"

enum {
    MOST_WINDOWS = 64,
    MOST_SLOTS = 4096,
    HEADER_BYTES = 20,
    MOST_BYTES = HEADER_BYTES + 4 * (MOST_WINDOWS + 1) + 8 * MOST_SLOTS
};

typedef struct {
    uint32_t last_window, slots, bursts, delay, buffer;
    uint32_t table[MOST_WINDOWS + 1];
    uint32_t burst_slots[MOST_SLOTS];
    uint32_t burst_counts[MOST_SLOTS];
} stream;

/* Unsigned 32-bit numbers, least significant byte first; gives the byte after the last. */
static const uint8_t *read_numbers(const uint8_t *bytes, uint32_t *numbers, size_t count) {
    for (size_t i = 0; i < count; i++, bytes += 4) {
        numbers[i] = bytes[0] | (uint32_t)bytes[1] << 8 | (uint32_t)bytes[2] << 16 |
                     (uint32_t)bytes[3] << 24;
    }
    return bytes;
}

/* Every number of an accepted file, whose counts stand in the given part. */
static void read_stream(const uint8_t *bytes, bezhantiru_part counts, stream *s) {
    uint32_t header[5];
    const uint8_t *next = read_numbers(bytes, header, 5);
    s->last_window = header[0];
    s->slots = header[1];
    s->bursts = header[2];
    s->delay = header[3];
    s->buffer = header[4];
    next = read_numbers(next, s->table, s->last_window + 1);
    read_numbers(next, s->burst_slots, s->bursts);
    read_numbers(bytes + counts.from, s->burst_counts, counts.bytes / 4);
}

/* Held after a slot is its record's fill at the end, as the order form reads it. */
static void print_line(uint64_t arrived, const bezhantiru_slot_row *row) {
    uint64_t held = bezhantiru_form_fill(row->held_before, row->admitted, row->departed);
    printf(" %" PRIu64 " %" PRIu64 " %" PRIu64 " %" PRIu64 " %" PRIu64 "\n", arrived, row->admitted,
           row->dropped, row->departed, held);
}

/*
 * The loop itself: one call for each slot. Where time counts, bezhantiru_slot_in_place answers the
 * same.
 */
static uint32_t emulate(const stream *s, bezhantiru_regulator *regulator) {
    /* The record of all slots together, before which nothing was held. */
    bezhantiru_slot_row total = {0, 0, 0, 0, 0};
    uint64_t arrived = 0;
    uint32_t next_burst = 0;
    puts("slot arrived admitted dropped departed held");
    for (uint32_t slot = 1; slot <= s->slots; slot++) {
        bool named = next_burst < s->bursts && s->burst_slots[next_burst] == slot;
        uint64_t arrivals = named ? s->burst_counts[next_burst++] : 0;
        bezhantiru_slot_row row = bezhantiru_slot(regulator, arrivals);
        if (row.number != 0) return row.number;
        printf("%" PRIu32, slot);
        print_line(arrivals, &row);
        arrived += arrivals;
        total.admitted += row.admitted;
        total.dropped += row.dropped;
        total.departed += row.departed;
    }
    printf("total");
    print_line(arrived, &total);
    return 0;
}

/*
 * The file's refusal, if it has one; of an accepted file no call is refused, save the set-up where
 * both limits are none: such a file has a table, and no live regulator.
 */
static uint32_t run(const uint8_t *bytes, size_t length) {
    static stream s;
    bezhantiru_part counts = bezhantiru_counts_part(bytes, length);
    if (counts.number != 0) return counts.number;
    read_stream(bytes, counts, &s);
    bezhantiru_made made = bezhantiru_set_up(s.table, s.last_window + 1, s.delay, s.buffer);
    return made.number != 0 ? made.number : emulate(&s, &made.regulator);
}

int main(int argc, char **argv) {
    /* One byte more than any accepted file, so that a longer one is seen to be longer. */
    static uint8_t bytes[MOST_BYTES + 1];
    FILE *file = argc > 1 ? fopen(argv[1], "rb") : stdin;
    if (file == NULL) {
        perror(argv[1]);
        return 1;
    }
    size_t length = fread(bytes, 1, sizeof bytes, file);
    if (ferror(file)) {
        perror("reading the stream");
        return 1;
    }
    uint32_t number = run(bytes, length);
    if (number != 0) printf("refused %" PRIu32 "\n", number);
    return fflush(stdout) == 0 ? 0 : 1;
}
