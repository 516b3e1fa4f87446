/*
 * The slot of a lent device: a refused one changes no byte of it, padding included, and an accepted
 * one raises the peaks to its fills, also in devices that nobody set up. Then the request's sample,
 * slot by slot. For device_unchanged.rs.
 */
#include <inttypes.h>
#include <stdio.h>
#include <string.h>

#include "bezhantiru.h"

static bezhantiru_device device;
static unsigned refused, accepted, wrong;

static uint64_t greater(uint64_t a, uint64_t b) { return a > b ? a : b; }

/* A call that has to be accepted. */
static void accept(uint64_t arrivals) {
    bezhantiru_device before = device;
    bezhantiru_slot_row row = bezhantiru_device_slot(&device, arrivals);
    uint64_t form = bezhantiru_form_fill(row.held_before, row.admitted, row.departed);
    uint64_t bench = bezhantiru_bench_fill(row.held_before, row.admitted);
    accepted += row.number == 0;
    wrong += device.slots != before.slots + 1 ||
             memcmp(&device.settings, &before.settings, sizeof device.settings) != 0 ||
             device.form_peak != greater(before.form_peak, form) ||
             device.bench_peak != greater(before.bench_peak, bench);
}

/* A call that has to be refused with `number`; every byte is compared before and after. */
static void refuse(uint64_t arrivals, uint32_t number) {
    unsigned char before[sizeof device];
    memcpy(before, &device, sizeof before);
    bezhantiru_slot_row row = bezhantiru_device_slot(&device, arrivals);
    refused += row.number == number;
    wrong += row.held_before != 0 || row.admitted != 0 || row.dropped != 0 || row.departed != 0 ||
             memcmp(before, &device, sizeof before) != 0;
}

/* A device that nobody set up, every byte of it alike, with few enough slots to take another. */
static void forge(unsigned byte) {
    memset(&device, (int)byte, sizeof device);
    refuse(1000001, 8);
    device.slots = byte;
    accept(byte);
    accept(1000000);
    refuse(1000001, 8);
    device.slots = 1000000 + byte;
    refuse(UINT64_MAX, 8);
    refuse(byte, 9);
}

/* A buffer of 8 lets enough wait for the buckets to be told apart. */
static void print_sample(const uint32_t *profile, size_t length) {
    bezhantiru_made_device made = bezhantiru_device_set_up(profile, length, BEZHANTIRU_NO_DELAY, 8);
    printf("number %" PRIu32 ":", made.number);
    for (int slot = 0; slot < 4; slot++) {
        bezhantiru_slot_row row = bezhantiru_device_slot(&made.device, 6);
        printf(" %" PRIu64 "/%" PRIu64 "/%" PRIu64 "/%" PRIu64, row.held_before, row.admitted,
               row.dropped, row.departed);
    }
    printf(", peaks %" PRIu64 " and %" PRIu64 "\n", made.device.form_peak, made.device.bench_peak);
}

int main(void) {
    const uint32_t profile[] = {4, 0, 1, 12};
    for (unsigned byte = 0; byte < 256; byte++) forge(byte);
    memset(&device, 0xa5, sizeof device);
    device = bezhantiru_device_set_up(profile, 4, 3, 9).device;
    for (uint64_t slot = 0; slot < 1000; slot++) {
        refuse(1000001 + slot, 8);
        refuse(UINT64_MAX - slot, 8);
        accept(slot % 7);
    }
    while (device.slots < 1000000) accept(1000000);
    for (uint64_t slot = 0; slot < 1000; slot++) {
        refuse(slot, 9);
        refuse(1000001 + slot, 8);
    }
    printf("%u refused, %u accepted, %u wrong\n", refused, accepted, wrong);
    print_sample(profile, 4);
    print_sample(profile, 2);
    print_sample(profile + 2, 2);
    print_sample(profile, 3);
    return 0;
}
