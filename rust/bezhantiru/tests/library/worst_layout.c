/* Prints the size, alignment and offsets of the worst trace's answer, for worst_layout.rs. */
#include "lines.h"

int main(void) {
    TYPE(bezhantiru_worst);
    FIELD(bezhantiru_worst, number);
    FIELD(bezhantiru_worst, loss);
    return 0;
}
