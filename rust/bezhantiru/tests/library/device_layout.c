/* Prints the sizes, alignments and offsets of a device, for device_layout.rs. */
#include "lines.h"

int main(void) {
    TYPE(bezhantiru_device_settings);
    FIELD(bezhantiru_device_settings, buckets);
    FIELD(bezhantiru_device_settings, delay);
    FIELD(bezhantiru_device_settings, buffer);
    FIELD(bezhantiru_device_settings, rates);
    FIELD(bezhantiru_device_settings, bursts);
    TYPE(bezhantiru_device);
    FIELD(bezhantiru_device, settings);
    FIELD(bezhantiru_device, slots);
    FIELD(bezhantiru_device, admitted);
    FIELD(bezhantiru_device, departed);
    FIELD(bezhantiru_device, levels);
    FIELD(bezhantiru_device, form_peak);
    FIELD(bezhantiru_device, bench_peak);
    TYPE(bezhantiru_made_device);
    FIELD(bezhantiru_made_device, number);
    FIELD(bezhantiru_made_device, device);
    return 0;
}
