/* Prints the size, alignment and offsets of the judge's answer, for judge_layout.rs. */
#include "lines.h"

int main(void) {
    TYPE(bezhantiru_judgement);
    FIELD(bezhantiru_judgement, number);
    FIELD(bezhantiru_judgement, rule);
    FIELD(bezhantiru_judgement, slot);
    FIELD(bezhantiru_judgement, window);
    return 0;
}
