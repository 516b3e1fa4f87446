/*
 * Anyone's rows through the header: verdicts by hand, then the judge refused for every reason. It only
 * reads what it is lent, so that no byte of it changes. For judge_unchanged.rs.
 */
#include <inttypes.h>
#include <stdio.h>
#include <string.h>

#include "bezhantiru.h"

enum { SLOTS = 4, LONGEST = 4096 };

/* All that a call is lent, so that its bytes can be compared at once. */
typedef struct {
    uint32_t table[3];
    uint32_t arrivals[LONGEST + 1];
    uint32_t admitted[LONGEST + 1];
    uint32_t departed[LONGEST + 1];
} loan;

typedef struct {
    size_t table, slots, admitted, departed;
    uint32_t delay, buffer;
} asked;

static loan lent;
static unsigned refused, wrong, changed;
static const asked row = {3, SLOTS, SLOTS, SLOTS, 1, 4};

/* Document 01's row, and rubbish behind it. */
static void lend(void) {
    const uint32_t table[] = {0, 2, 3}, arrivals[] = {5, 0, 4, 0};
    const uint32_t admitted[] = {3, 0, 3, 0}, departed[] = {2, 1, 2, 1};
    memset(&lent, 0xa5, sizeof lent);
    memcpy(lent.table, table, sizeof table);
    memcpy(lent.arrivals, arrivals, sizeof arrivals);
    memcpy(lent.admitted, admitted, sizeof admitted);
    memcpy(lent.departed, departed, sizeof departed);
}

static bezhantiru_judgement judge(asked ask) {
    loan before = lent;
    bezhantiru_judgement found =
        bezhantiru_judge(lent.table, ask.table, ask.delay, ask.buffer, lent.arrivals, ask.slots,
                         lent.admitted, ask.admitted, lent.departed, ask.departed);
    changed += memcmp(&before, &lent, sizeof lent) != 0;
    return found;
}

/* One number of the row's admitted or departed packets replaced. */
static void print_with(uint32_t *list, size_t slot, uint32_t count) {
    lend();
    list[slot - 1] = count;
    bezhantiru_judgement found = judge(row);
    printf("number %" PRIu32 ", rule %" PRIu32 ", slot %" PRIu32 ", window %" PRIu32 "\n",
           found.number, found.rule, found.slot, found.window);
}

static void refuse(asked ask, uint32_t number) {
    bezhantiru_judgement found = judge(ask);
    refused += found.number == number;
    wrong += found.number != number || found.rule != 0 || found.slot != 0 || found.window != 0;
}

/* Each refusal with all those after it in the order. */
static void refuse_in_order(void) {
    asked ask = {1, LONGEST + 1, 0, 0, 65, 1000001};
    lend();
    lent.arrivals[3] = 1000001;
    refuse(ask, 1);
    ask.table = 3;
    lent.table[0] = 1;
    refuse(ask, 2);
    lent.table[0] = 0;
    lent.table[1] = 1000001;
    refuse(ask, 3);
    lent.table[1] = 4;
    refuse(ask, 4);
    lent.table[1] = 2;
    refuse(ask, 6);
    ask.delay = BEZHANTIRU_NO_DELAY;
    refuse(ask, 7);
    ask.buffer = BEZHANTIRU_NO_BUFFER;
    refuse(ask, 23);
    ask.buffer = 4;
    refuse(ask, 10);
    ask.slots = SLOTS;
    refuse(ask, 11);
    ask.admitted = ask.departed = SLOTS;
    refuse(ask, 8);
}

int main(void) {
    print_with(lent.admitted, 1, 3);
    print_with(lent.admitted, 4, 1);
    print_with(lent.admitted, 1, 1);
    print_with(lent.departed, 1, 3);
    print_with(lent.admitted, 1, 5);
    print_with(lent.departed, 3, 1);
    refuse_in_order();
    lend();
    for (size_t length = 0; length <= LONGEST + 1; length++) {
        asked admitted = row, departed = row;
        admitted.admitted = departed.departed = length;
        if (length == SLOTS) continue;
        refuse(admitted, 11);
        refuse(departed, 11);
    }
    printf("%u refused, %u wrong, %u changed\n", refused, wrong, changed);
    return 0;
}
