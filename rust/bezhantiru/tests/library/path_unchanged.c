/*
 * A path's run: a refused one changes no byte of the three lists or beside them, and tables beyond
 * the number of stages are not looked at. Then rows by hand, each stage's departures after a bar. For
 * path_unchanged.rs.
 */
#include <inttypes.h>
#include <stdio.h>
#include <string.h>

#include "bezhantiru.h"

enum { SLOTS = 4, ROOM = 32, BESIDE = 8 };

typedef struct {
    const uint32_t *numbers;
    size_t length;
} list;

#define LIST(...) {(const uint32_t[]){__VA_ARGS__}, \
                   sizeof((const uint32_t[]){__VA_ARGS__}) / sizeof(uint32_t)}

/* Tables that are accepted, and one for each number from 1 to 4. */
static const list accepted_tables[4] = {LIST(0, 2, 3), LIST(0, 1), LIST(0, 3, 3, 3),
                                        LIST(0, 1000000)};
static const list refused_tables[4] = {LIST(0), LIST(1, 0), LIST(0, 1000001), LIST(0, 3, 2)};
static const list burst_table = LIST(0, 4, 8, 12, 16, 17, 18);

static const list few = LIST(5, 0, 4, 0), six_each = LIST(6, 6, 6, 6);
static const list too_many = LIST(5, 0, 4, 1000001);
static const uint32_t zeros[4097];

/* What one call is lent; the lists have as many numbers as `lengths` says. */
typedef struct {
    uint32_t stages;
    list tables[4];
    uint32_t delay, buffer;
    list arrivals;
    size_t lengths[3];
} call;

static uint32_t lists[3][BESIDE + ROOM + BESIDE];
static unsigned refused, accepted, changed;

static uint32_t run(const call *lent) {
    const list *t = lent->tables, *arrivals = &lent->arrivals;
    memset(lists, 0xa5, sizeof lists);
    return bezhantiru_path_run(lent->stages, t[0].numbers, t[0].length, t[1].numbers, t[1].length,
                               t[2].numbers, t[2].length, t[3].numbers, t[3].length, lent->delay,
                               lent->buffer, arrivals->numbers, arrivals->length,
                               lists[0] + BESIDE, lent->lengths[0], lists[1] + BESIDE,
                               lent->lengths[1], lists[2] + BESIDE, lent->lengths[2]);
}

static int untouched(const uint32_t *numbers, size_t count) {
    for (size_t i = 0; i < count; i++)
        if (numbers[i] != UINT32_C(0xa5a5a5a5)) return 0;
    return 1;
}

static void refuse(call lent, uint32_t number) {
    refused += run(&lent) == number;
    changed += !untouched(lists[0], sizeof lists / sizeof(uint32_t));
}

/* All of the lists are written, and nothing beside them. */
static void accept(call lent) {
    accepted += run(&lent) == 0;
    for (int i = 0; i < 3; i++) {
        size_t length = lent.lengths[i];
        changed += !untouched(lists[i], BESIDE) ||
                   !untouched(lists[i] + BESIDE + length, ROOM - length + BESIDE);
        for (size_t slot = 0; slot < length; slot++)
            changed += untouched(lists[i] + BESIDE + slot, 1);
    }
}

/* A path of so many stages that is accepted, with tables beyond them that would be refused. */
static call good(uint32_t stages) {
    call lent = {stages, {{0}}, 1, 9, few, {SLOTS, SLOTS, stages * SLOTS}};
    for (uint32_t stage = 0; stage < 4; stage++)
        lent.tables[stage] = stage < stages ? accepted_tables[stage] : refused_tables[stage];
    return lent;
}

/* Each number at each stage, with every later table refused by another one. */
static void refuse_tables(uint32_t stages) {
    for (uint32_t stage = 0; stage < stages; stage++)
        for (uint32_t number = 1; number <= 4; number++) {
            call lent = good(stages);
            for (uint32_t later = stage; later < 4; later++)
                lent.tables[later] = refused_tables[(number - 1 + later - stage) % 4];
            lent.delay = 65;
            refuse(lent, number);
        }
}

static void refuse_lists(uint32_t stages) {
    for (int i = 0; i < 3; i++)
        for (size_t length = 0; length <= 5 * SLOTS; length++) {
            call lent = good(stages);
            if (length == lent.lengths[i]) continue;
            lent.lengths[i] = length;
            refuse(lent, 11);
        }
}

static void refuse_rest(uint32_t stages) {
    call delay = good(stages), buffer = good(stages), slots = good(stages), count = good(stages);
    call both = good(stages);
    delay.delay = 65;
    delay.buffer = buffer.buffer = 1000001;
    both.delay = BEZHANTIRU_NO_DELAY;
    both.buffer = BEZHANTIRU_NO_BUFFER;
    both.arrivals = buffer.arrivals = slots.arrivals = (list){zeros, 4097};
    count.arrivals = too_many;
    refuse(delay, 6);
    refuse(buffer, 7);
    refuse(both, 23);
    refuse(slots, 10);
    refuse(count, 8);
}

static void print_list(const char *name, const uint32_t *numbers, size_t length) {
    printf("%s", name);
    for (size_t i = 0; i < length; i++)
        printf("%s%" PRIu32, i > 0 && i % SLOTS == 0 ? " | " : " ", numbers[i]);
}

static void print_rows(call lent) {
    printf("number %" PRIu32, run(&lent));
    print_list(", admitted", lists[0] + BESIDE, lent.lengths[0]);
    print_list(", dropped", lists[1] + BESIDE, lent.lengths[1]);
    print_list(", departed", lists[2] + BESIDE, lent.lengths[2]);
    printf("\n");
}

/* Document 01's burst through two and four stages with its table. */
static call burst(uint32_t stages) {
    call lent = good(stages);
    for (uint32_t stage = 0; stage < stages; stage++)
        lent.tables[stage] = burst_table;
    lent.delay = BEZHANTIRU_NO_DELAY;
    lent.buffer = 4;
    lent.arrivals = six_each;
    return lent;
}

int main(void) {
    const uint32_t numbers[] = {0, 5, 6, UINT32_MAX};
    for (int i = 0; i < 4; i++) {
        call lent = good(4);
        lent.stages = numbers[i];
        refuse(lent, 17);
    }
    for (uint32_t stages = 1; stages <= 4; stages++) {
        refuse_tables(stages);
        refuse_lists(stages);
        refuse_rest(stages);
        accept(good(stages));
    }
    printf("%u refused, %u accepted, %u changed\n", refused, accepted, changed);
    print_rows(good(1));
    print_rows(good(2));
    print_rows(burst(2));
    print_rows(burst(4));
    return 0;
}
