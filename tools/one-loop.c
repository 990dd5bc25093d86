/*
 * What tools/one-loop counts: a hundred runs of 256 mixed steps by listing_run, each from what the last one left, with a budget of as many
 * steps as are said. The steps are those of compare/run runs (`listing_of` of compare/src/steps.rs, mixed, of seed 1).
 */
#include <stdio.h>
#include <stdlib.h>

#include "gromavelush.h"

static uint32_t next(uint32_t x)
{
    return x * 1664525 + 1013904223;
}

static uint64_t step_of(uint32_t x)
{
    uint32_t kind = x % 16, r = x / 16 % 7, s = x / 128 % 8, k = x / 1024 % 64, size = x / 65536 % 3;
    uint32_t wide = size % 2 == 0 ? GRO_WORD : GRO_LONG, even = k % 2 == 0;
    uint32_t from = even ? GRO_SMALL : GRO_DATA, count = even ? s + 1 : s;

    if (kind < 5)
        return GRO_STEP(GRO_ADD + k % 5, size, GRO_DATA, s, r);
    if (kind < 7)
        return GRO_STEP(GRO_ADDA + k % 3, wide, even ? GRO_DATA : GRO_ADDRESS, s, r);
    if (kind < 9)
        return GRO_STEP((even ? GRO_ADDQ : GRO_ADDQA) + k / 2 % 2, wide, GRO_SMALL, s + 1, r);
    if (kind < 11)
        return GRO_STEP(GRO_CLR + k % 5, k % 5 == 4 ? wide : size, GRO_NONE, 0, r);
    if (kind < 14)
        return GRO_STEP(GRO_ASL + k / 2 % 8, size, from, count, r);
    if (kind < 15)
        return GRO_STEP(GRO_BTST + k / 2 % 4, GRO_LONG, from, count, r);
    return GRO_STEP(GRO_CHK, GRO_WORD, GRO_DATA, 7, 7);
}

int main(int words, char **word)
{
    uint32_t d[8] = {1, 2, 3, 4, 5, 6, 7, 8}, a[8] = {9, 10, 11, 12, 13, 14, 15, 16}, x = 1, budget;
    uint64_t listing[GRO_SLOTS], told[GRO_TOLD] = {0};
    uint8_t flags = 0;
    int i;

    if (words != 2)
        return 2;
    budget = (uint32_t)strtoul(word[1], NULL, 10);
    for (i = 0; i < GRO_SLOTS; i++) {
        x = next(x);
        listing[i] = step_of(x / 256) | (uint64_t)(next(next(x)) >> 24) << 40; /* byte 5 is its line */
    }
    for (i = 0; i < 100; i++)
        listing_run(listing, GRO_SLOTS, d, a, &flags, 0, budget, told);
    printf("%d steps, %d clocks\n", (int)told[4], (int)told[5]);
    return told[4] != budget;
}
