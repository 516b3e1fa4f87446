/* Prints the size, alignment and offsets of the smallest limits' answer, for size_layout.rs. */
#include "lines.h"

int main(void) {
    TYPE(bezhantiru_size);
    FIELD(bezhantiru_size, number);
    FIELD(bezhantiru_size, found);
    FIELD(bezhantiru_size, limit);
    FIELD(bezhantiru_size, lost);
    return 0;
}
