/*
 * A port's run: a refused one changes no byte of either list or beside them. Then rows by hand, each
 * stream's packets after a bar. For port_unchanged.rs.
 */
#include <inttypes.h>
#include <stdio.h>
#include <string.h>

#include "bezhantiru.h"

enum { ROOM = 40, BESIDE = 8 };

/* What one call is lent; each list has as many numbers as its length says. */
typedef struct {
    uint32_t deadlines[ROOM];
    size_t streams;
    uint32_t slots, capacity, input[ROOM];
    size_t input_length, sent_length, late_length;
} call;

static uint32_t sent[BESIDE + ROOM + BESIDE], late[BESIDE + ROOM + BESIDE];
static unsigned refused, accepted, changed;

static uint32_t run(const call *lent) {
    memset(sent, 0xa5, sizeof sent);
    memset(late, 0xa5, sizeof late);
    return bezhantiru_port_run(lent->deadlines, lent->streams, lent->slots, lent->capacity,
                               lent->input, lent->input_length, sent + BESIDE, lent->sent_length,
                               late + BESIDE, lent->late_length);
}

static int untouched(const uint32_t *numbers, size_t count) {
    for (size_t i = 0; i < count; i++)
        if (numbers[i] != UINT32_C(0xa5a5a5a5)) return 0;
    return 1;
}

static void refuse(const call *lent, uint32_t number) {
    refused += run(lent) == number;
    changed += !untouched(sent, BESIDE + ROOM + BESIDE) || !untouched(late, BESIDE + ROOM + BESIDE);
}

/* All of a list is written, and nothing beside it. */
static void look(const uint32_t *list, size_t length) {
    changed += !untouched(list, BESIDE) ||
               !untouched(list + BESIDE + length, ROOM - length + BESIDE);
    for (size_t i = 0; i < length; i++) changed += untouched(list + BESIDE + i, 1);
}

static void accept(const call *lent) {
    accepted += run(lent) == 0;
    look(sent, lent->sent_length);
    look(late, lent->late_length);
}

/* A packet of each stream in each slot, and a port that sends three. */
static call good(size_t streams, uint32_t slots) {
    size_t counted = streams * slots;
    call lent = {{0}, streams, slots, 3, {0}, counted, counted, streams};
    for (size_t i = 0; i < streams; i++) lent.deadlines[i] = 2;
    for (size_t i = 0; i < counted; i++) lent.input[i] = 1;
    return lent;
}

/* Streams and slots out of range, with a deadline and a count that would be refused next; 38. */
static void refuse_sizes(void) {
    const uint32_t slots[] = {257, 258, 65536, UINT32_MAX};
    for (size_t streams = 0; streams <= ROOM; streams++) {
        if (streams >= 1 && streams <= 8) continue;
        call lent = good(streams, 0);
        lent.slots = 3;
        lent.deadlines[0] = 65;
        refuse(&lent, 21);
    }
    for (int i = 0; i < 4; i++) {
        call lent = good(8, 0);
        lent.slots = slots[i];
        lent.deadlines[7] = 65;
        refuse(&lent, 21);
    }
    call lent = good(9, 4);
    lent.slots = UINT32_MAX;
    lent.input[0] = 1000001;
    refuse(&lent, 21);
}

/* Each deadline, each count, each list of each other length: 5 for a stream and 117. */
static void refuse_rest(size_t streams) {
    call lent;
    for (size_t i = 0; i < streams; i++) {
        lent = good(streams, 4);
        lent.deadlines[i] = 65;
        lent.input_length--;
        refuse(&lent, 22);
    }
    for (size_t i = 0; i < 4 * streams; i++) {
        lent = good(streams, 4);
        lent.input[i] = 1000001;
        refuse(&lent, 8);
    }
    for (size_t length = 0; length < ROOM; length++) {
        lent = good(streams, 4);
        lent.input[0] = 1000001;
        lent.input_length = length;
        if (length != 4 * streams) refuse(&lent, 11);
        lent = good(streams, 4);
        lent.sent_length = length;
        if (length != 4 * streams) refuse(&lent, 11);
        lent = good(streams, 4);
        lent.late_length = length;
        if (length != streams) refuse(&lent, 11);
    }
}

static void accept_all(size_t streams) {
    const uint32_t capacities[] = {0, 1, UINT32_MAX};
    for (uint32_t slots = 0; slots <= 4; slots += 2) {
        call lent = good(streams, slots);
        lent.deadlines[0] = 64;
        accept(&lent);
    }
    for (int i = 0; i < 3; i++) {
        call lent = good(streams, 4);
        lent.capacity = capacities[i];
        lent.input[0] = 1000000;
        accept(&lent);
    }
    call lent = good(streams, 5);
    lent.deadlines[streams - 1] = 0;
    accept(&lent);
}

static void print_list(const char *name, const uint32_t *numbers, size_t length, size_t slots) {
    printf("%s", name);
    for (size_t i = 0; i < length; i++)
        printf("%s%" PRIu32, i > 0 && i % slots == 0 ? " | " : " ", numbers[i]);
}

static void print_rows(const call *lent) {
    printf("number %" PRIu32, run(lent));
    print_list(", sent", sent + BESIDE, lent->sent_length, lent->slots);
    print_list(", late", late + BESIDE, lent->late_length, ROOM);
    printf("\n");
}

int main(void) {
    const call rows[] = {{{2, 1}, 2, 4, 2, {2, 1, 0, 1, 1, 4, 1, 0}, 8, 8, 2},
                         {{1, 2}, 2, 4, 2, {1, 4, 1, 0, 2, 1, 0, 1}, 8, 8, 2}};
    refuse_sizes();
    for (size_t streams = 1; streams <= 8; streams++) {
        refuse_rest(streams);
        accept_all(streams);
    }
    printf("%u refused, %u accepted, %u changed\n", refused, accepted, changed);
    print_rows(&rows[0]);
    print_rows(&rows[1]);
    return 0;
}
