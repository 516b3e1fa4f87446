/*
 * Chains through the header: those of document 01's row, one by one; then finder and checker refused
 * for every reason, which change no byte of what they are lent. For chain_unchanged.rs.
 */
#include <inttypes.h>
#include <stdio.h>
#include <string.h>

#include "bezhantiru.h"

enum { SLOTS = 4, LONGEST = 4096 };

/* All that both calls are lent, so that its bytes can be compared at once. */
typedef struct {
    uint32_t table[3];
    uint32_t arrivals[LONGEST + 1];
    uint32_t slots[LONGEST + 2];
    uint32_t marks[LONGEST + 2];
    uint32_t amounts[LONGEST + 2];
} loan;

static loan lent;
static unsigned refused, wrong, changed;

/* Document 01's row, and lists of rubbish. */
static void lend(void) {
    const uint32_t table[] = {0, 2, 3}, arrivals[] = {5, 0, 4, 0};
    memset(&lent, 0xa5, sizeof lent);
    memcpy(lent.table, table, sizeof table);
    memcpy(lent.arrivals, arrivals, sizeof arrivals);
}

typedef struct {
    size_t table, trace, lists;
    uint32_t delay, buffer, slot;
} asked;

static bezhantiru_chain find(asked ask) {
    return bezhantiru_find_chain(lent.table, ask.table, ask.delay, ask.buffer, lent.arrivals,
                                 ask.trace, ask.slot, lent.slots, ask.lists, lent.marks, ask.lists,
                                 lent.amounts, ask.lists);
}

static bezhantiru_chain_verdict check(asked ask, uint32_t places) {
    return bezhantiru_check_chain(lent.table, ask.table, ask.delay, ask.buffer, lent.arrivals,
                                  ask.trace, ask.slot, lent.slots, ask.lists, lent.marks, ask.lists,
                                  lent.amounts, ask.lists, places);
}

static void print_chain(uint32_t slot) {
    asked ask = {3, SLOTS, SLOTS + 1, 1, 9, slot};
    lend();
    bezhantiru_chain chain = find(ask);
    printf("number %" PRIu32 ":", chain.number);
    for (uint32_t place = 0; place < chain.places; place++)
        printf(" %" PRIu32 "/%" PRIu32 "/%" PRIu32, lent.slots[place], lent.marks[place],
               lent.amounts[place]);
    loan found = lent;
    printf(", sound %" PRIu32, check(ask, chain.places).sound);
    printf(", one place more %" PRIu32 "\n", check(ask, chain.places + 1).sound);
    changed += memcmp(&found, &lent, sizeof lent) != 0;
    memset(lent.slots, 0xa5, chain.places * sizeof lent.slots[0]);
    memset(lent.marks, 0xa5, chain.places * sizeof lent.marks[0]);
    memset(lent.amounts, 0xa5, chain.places * sizeof lent.amounts[0]);
    found = lent;
    lend();
    changed += memcmp(&found, &lent, sizeof lent) != 0;
}

/* Both calls have to be refused with `number`; every byte lent is compared before and after. */
static void refuse(asked ask, uint32_t number) {
    loan before = lent;
    bezhantiru_chain chain = find(ask);
    bezhantiru_chain_verdict verdict = check(ask, 1);
    refused += (chain.number == number) + (verdict.number == number);
    wrong += chain.places != 0 || verdict.sound != 0;
    changed += memcmp(&before, &lent, sizeof lent) != 0;
}

int main(void) {
    for (uint32_t slot = 0; slot <= SLOTS; slot++) print_chain(slot);

    const asked row = {3, SLOTS, SLOTS + 1, 1, 9, 3};
    for (uint32_t slot = SLOTS + 1; slot < 1000; slot++) {
        asked ask = row;
        ask.slot = slot;
        refuse(ask, 18);
        ask.slot = UINT32_MAX - slot;
        refuse(ask, 18);
    }
    for (size_t length = 0; length <= LONGEST + 2; length++) {
        asked ask = row;
        ask.lists = length;
        if (length != SLOTS + 1) refuse(ask, 11);
    }
    asked ask = {1, SLOTS, 0, 65, 1000001, UINT32_MAX};
    lent.arrivals[3] = 1000001;
    refuse(ask, 1);
    ask.table = 3;
    refuse(ask, 6);
    ask.delay = BEZHANTIRU_NO_DELAY;
    refuse(ask, 7);
    ask.buffer = BEZHANTIRU_NO_BUFFER;
    ask.trace = LONGEST + 1;
    refuse(ask, 23);
    ask.buffer = 9;
    refuse(ask, 10);
    ask.trace = SLOTS;
    refuse(ask, 11);
    ask.lists = SLOTS + 1;
    refuse(ask, 8);
    lent.arrivals[3] = 1000000;
    refuse(ask, 18);
    printf("%u refused, %u wrong, %u changed\n", refused, wrong, changed);
    return 0;
}
