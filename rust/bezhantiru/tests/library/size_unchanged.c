/*
 * The smallest limits through the header: sizes by hand, then each refusal with all those after it in
 * the order. They only read what they are lent, so that no byte of it changes. For size_unchanged.rs.
 */
#include <inttypes.h>
#include <stdio.h>
#include <string.h>

#include "bezhantiru.h"

enum { SLOTS = 4, LONGEST = 4096 };

/* All that a call is lent, so that its bytes can be compared at once. */
typedef struct {
    uint32_t table[3];
    uint32_t arrivals[LONGEST + 1];
} loan;

typedef bezhantiru_size finder(const uint32_t *, size_t, uint32_t, const uint32_t *, size_t,
                               uint32_t);

static loan lent;
static unsigned refused, wrong, changed;

/* Document 01's row, and rubbish behind it. */
static void lend(void) {
    const uint32_t table[] = {0, 2, 3}, arrivals[] = {5, 0, 4, 0};
    memset(&lent, 0xa5, sizeof lent);
    memcpy(lent.table, table, sizeof table);
    memcpy(lent.arrivals, arrivals, sizeof arrivals);
}

static bezhantiru_size find(finder *by, size_t entries, uint32_t given, size_t slots,
                            uint32_t most_lost) {
    loan before = lent;
    bezhantiru_size found = by(lent.table, entries, given, lent.arrivals, slots, most_lost);
    changed += memcmp(&before, &lent, sizeof lent) != 0;
    return found;
}

static void print_sizes(const char *name, finder *by, uint32_t given) {
    lend();
    for (uint32_t most_lost = 0; most_lost <= 9; most_lost += 3) {
        bezhantiru_size found = find(by, 3, given, SLOTS, most_lost);
        printf("%s, %" PRIu32 " lost: number %" PRIu32 ", found %" PRIu32 ", limit %" PRIu32
               ", lost %" PRIu32 "\n",
               name, most_lost, found.number, found.found, found.limit, found.lost);
    }
}

static void refuse(finder *by, size_t entries, uint32_t given, size_t slots, uint32_t number) {
    bezhantiru_size found = find(by, entries, given, slots, UINT32_MAX);
    refused += found.number == number;
    wrong += found.number != number || found.found != 0 || found.limit != 0 || found.lost != 0;
}

/* `bad` is a limit that gets this number; `good` is one that does not. */
static void refuse_in_order(finder *by, uint32_t bad, uint32_t number, uint32_t good) {
    lend();
    lent.arrivals[3] = 1000001;
    refuse(by, 1, bad, LONGEST + 1, 1);
    lent.table[0] = 1;
    refuse(by, 3, bad, LONGEST + 1, 2);
    lent.table[0] = 0;
    lent.table[1] = 1000001;
    refuse(by, 3, bad, LONGEST + 1, 3);
    lent.table[1] = 4;
    refuse(by, 3, bad, LONGEST + 1, 4);
    lent.table[1] = 2;
    refuse(by, 3, bad, LONGEST + 1, number);
    refuse(by, 3, good, LONGEST + 1, 10);
    refuse(by, 3, good, SLOTS, 8);
}

int main(void) {
    print_sizes("buffer", bezhantiru_smallest_buffer, 1);
    print_sizes("delay", bezhantiru_smallest_delay, 9);
    refuse_in_order(bezhantiru_smallest_buffer, 65, 6, BEZHANTIRU_NO_DELAY);
    refuse_in_order(bezhantiru_smallest_delay, 1000001, 7, BEZHANTIRU_NO_BUFFER);
    printf("%u refused, %u wrong, %u changed\n", refused, wrong, changed);
    return 0;
}
