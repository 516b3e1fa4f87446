/*
 * Certificates through the header: document 01's row certified and checked; then both functions refused
 * for every reason, which change no byte of what they are lent. For certificate_unchanged.rs.
 */
#include <inttypes.h>
#include <stdio.h>
#include <string.h>

#include "bezhantiru.h"

enum { SLOTS = 4, LONGEST = 4096 };

/* All that both calls are lent, so that its bytes can be compared at once. */
typedef struct {
    uint32_t table[3];
    uint32_t arrivals[LONGEST + 1];
    uint32_t admitted[LONGEST + 1];
    uint32_t departed[LONGEST + 1];
    uint32_t admitted_from[LONGEST + 1];
    uint32_t admitted_by[LONGEST + 1];
    uint32_t departed_from[LONGEST + 1];
} loan;

/* Lengths, the five lists' in the order of the check, and limits. */
typedef struct {
    size_t table, slots, lists[5];
    uint32_t delay, buffer;
} asked;

static loan lent;
static unsigned refused, wrong, changed;
static const asked row = {3, SLOTS, {SLOTS, SLOTS, SLOTS, SLOTS, SLOTS}, 1, 9};

/* Document 01's row, and rubbish in the other lists and behind it. */
static void lend(void) {
    const uint32_t table[] = {0, 2, 3}, arrivals[] = {5, 0, 4, 0};
    const uint32_t admitted[] = {3, 0, 3, 0}, departed[] = {2, 1, 2, 1};
    memset(&lent, 0xa5, sizeof lent);
    memcpy(lent.table, table, sizeof table);
    memcpy(lent.arrivals, arrivals, sizeof arrivals);
    memcpy(lent.admitted, admitted, sizeof admitted);
    memcpy(lent.departed, departed, sizeof departed);
}

static uint32_t certify(asked ask) {
    return bezhantiru_certify(lent.table, ask.table, ask.delay, ask.buffer, lent.arrivals, ask.slots,
                              lent.admitted_from, ask.lists[2], lent.admitted_by, ask.lists[3],
                              lent.departed_from, ask.lists[4]);
}

/* It only reads what it is lent. */
static bezhantiru_judgement check(asked ask) {
    loan before = lent;
    bezhantiru_judgement found = bezhantiru_check_certificate(
        lent.table, ask.table, ask.delay, ask.buffer, lent.arrivals, ask.slots, lent.admitted,
        ask.lists[0], lent.departed, ask.lists[1], lent.admitted_from, ask.lists[2],
        lent.admitted_by, ask.lists[3], lent.departed_from, ask.lists[4]);
    changed += memcmp(&before, &lent, sizeof lent) != 0;
    return found;
}

/* The row's certificate, which stands at the lists' first places and nowhere else. */
static void print_certificate(void) {
    const size_t size = SLOTS * sizeof(uint32_t);
    lend();
    loan before = lent;
    printf("number %" PRIu32 ":", certify(row));
    for (size_t slot = 0; slot < SLOTS; slot++)
        printf(" %" PRIu32 "/%" PRIu32 "/%" PRIu32, lent.admitted_from[slot],
               lent.admitted_by[slot], lent.departed_from[slot]);
    printf("\n");
    memcpy(before.admitted_from, lent.admitted_from, size);
    memcpy(before.admitted_by, lent.admitted_by, size);
    memcpy(before.departed_from, lent.departed_from, size);
    changed += memcmp(&before, &lent, sizeof lent) != 0;
}

/* One number of a list replaced, beside the row's certificate. */
static void print_with(uint32_t *list, size_t slot, uint32_t number) {
    lend();
    certify(row);
    list[slot - 1] = number;
    bezhantiru_judgement found = check(row);
    printf("number %" PRIu32 ", rule %" PRIu32 ", slot %" PRIu32 ", window %" PRIu32 "\n",
           found.number, found.rule, found.slot, found.window);
}

static void refuse_check(asked ask, uint32_t number) {
    bezhantiru_judgement found = check(ask);
    refused += found.number == number;
    wrong += found.number != number || found.rule != 0 || found.slot != 0 || found.window != 0;
}

static void refuse_both(asked ask, uint32_t number) {
    loan before = lent;
    uint32_t found = certify(ask);
    refused += found == number;
    wrong += found != number;
    changed += memcmp(&before, &lent, sizeof lent) != 0;
    refuse_check(ask, number);
}

/* Each refusal with all those after it in the order. */
static void refuse_in_order(void) {
    asked ask = {1, LONGEST + 1, {0}, 65, 1000001};
    lend();
    lent.arrivals[3] = 1000001;
    refuse_both(ask, 1);
    ask.table = 3;
    lent.table[0] = 1;
    refuse_both(ask, 2);
    lent.table[0] = 0;
    lent.table[1] = 1000001;
    refuse_both(ask, 3);
    lent.table[1] = 4;
    refuse_both(ask, 4);
    lent.table[1] = 2;
    refuse_both(ask, 6);
    ask.delay = BEZHANTIRU_NO_DELAY;
    refuse_both(ask, 7);
    ask.buffer = BEZHANTIRU_NO_BUFFER;
    refuse_both(ask, 23);
    ask.buffer = 9;
    refuse_both(ask, 10);
    ask.slots = SLOTS;
    refuse_both(ask, 11);
    memcpy(ask.lists, row.lists, sizeof ask.lists);
    refuse_both(ask, 8);
}

int main(void) {
    print_certificate();
    print_with(lent.admitted, 1, 3);
    print_with(lent.admitted_from, 2, 2);
    print_with(lent.admitted_by, 4, 2);
    print_with(lent.departed_from, 3, 3);
    print_with(lent.departed, 1, 3);
    refuse_in_order();
    lend();
    for (size_t length = 0; length <= LONGEST + 1; length++) {
        if (length == SLOTS) continue;
        for (size_t list = 0; list < 5; list++) {
            asked ask = row;
            ask.lists[list] = length;
            if (list < 2)
                refuse_check(ask, 11);
            else
                refuse_both(ask, 11);
        }
    }
    printf("%u refused, %u wrong, %u changed\n", refused, wrong, changed);
    return 0;
}
