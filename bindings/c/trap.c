/*
 * A listing made by hand, halted by its budget, continued into a CHK that traps, and continued after it. Its steps have lines of their
 * own, and the trap tells which.
 */
#include "gromavelush.h"

#include <stdio.h>

enum { STEPS = 3 };

/* Adds 8 to D1, checks it against the bound in D0, clears D1: lines 7 to 9. */
static const uint64_t listing[STEPS] = {
    GRO_STEP_AT(GRO_ADDQ, GRO_WORD, GRO_SMALL, 8, 1, 7),
    GRO_STEP_AT(GRO_CHK, GRO_WORD, GRO_DATA, 0, 1, 8),
    GRO_STEP_AT(GRO_CLR, GRO_WORD, GRO_NONE, 0, 1, 9),
};

/* Runs from a place; answers the next one. */
static size_t go(size_t place, uint32_t budget, uint32_t d[8], uint32_t a[8], uint8_t *flags) {
    static const char *const ends[] = {"Finished", "Budget", "Trapped", "Refused"};
    static const char *const classes[] = {"", " Over", " Short", " Below"};
    uint64_t told[GRO_TOLD] = {0};
    listing_run(listing, STEPS, d, a, flags, place, budget, told);
    printf("%s%s", ends[told[0]], told[0] == GRO_TRAPPED ? classes[told[1]] : "");
    if (told[0] == GRO_TRAPPED) printf(" at place %u, line %u", (unsigned)told[2], (unsigned)told[6]);
    printf(": next place %u, steps %u, clocks %u; D1 %08X\n", (unsigned)told[3], (unsigned)told[4], (unsigned)told[5], (unsigned)d[1]);
    return (size_t)told[3];
}

int main(void) {
    uint32_t d[8] = {10, 5, 0, 0, 0, 0, 0, 0}, a[8] = {0, 0, 0, 0, 0, 0, 0, 0};
    uint8_t flags = 0, out[GRO_ROOM] = {0};
    size_t place;
    fwrite(out, 1, listing_print(1, listing, STEPS, out, GRO_ROOM), stdout);
    place = go(0, 1, d, a, &flags);
    place = go(place, 100, d, a, &flags);
    go(place, 100, d, a, &flags);
    return 0;
}
