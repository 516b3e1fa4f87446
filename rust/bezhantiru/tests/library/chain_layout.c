/* Prints the sizes, alignments and offsets of a chain's answers, for chain_layout.rs. */
#include "lines.h"

int main(void) {
    TYPE(bezhantiru_chain);
    FIELD(bezhantiru_chain, number);
    FIELD(bezhantiru_chain, places);
    TYPE(bezhantiru_chain_verdict);
    FIELD(bezhantiru_chain_verdict, number);
    FIELD(bezhantiru_chain_verdict, sound);
    return 0;
}
