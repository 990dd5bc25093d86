/*
 * The library's functions as a program in C calls them: so many times, each on what the last call left. compare/src/shipped_rounds.rs
 * has these measured.
 */
#include "gromavelush.h"

void c_listing_run(size_t times, const uint64_t *listing, size_t length, uint32_t d[8], uint32_t a[8], uint8_t *flags, uint32_t budget,
                   uint64_t told[GRO_TOLD])
{
    while (times-- > 0)
        listing_run(listing, length, d, a, flags, 0, budget, told);
}

void c_recipe_run(size_t times, const uint8_t *text, size_t length, uint32_t d[8], uint32_t a[8], uint8_t *flags, uint64_t told[GRO_TOLD])
{
    while (times-- > 0)
        recipe_run(text, length, d, a, flags, told);
}

void c_recipe_translate(size_t times, const uint8_t *text, size_t length, uint64_t *listing, size_t slots, uint64_t told[GRO_TOLD])
{
    while (times-- > 0)
        recipe_translate(text, length, listing, slots, told);
}
