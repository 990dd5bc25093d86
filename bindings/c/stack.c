/*
 * How much stack each function of gromavelush.h uses at most: it is called on a painted stack with inputs that reach every part of
 * it. A line for each function: its name and the bytes, the call itself counted in, and memcpy, but not the loader's work at the first
 * call of that. Status 1: one uses more than the 16 KiB that the header asks for.
 */
#define _XOPEN_SOURCE 700
#include "gromavelush.h"

#include <stdio.h>
#include <string.h>
#include <ucontext.h>

enum { SAID = 16384, STACK = 1 << 18, PAINT = 0x5A, MOST = GRO_SLOTS + 44 };

static uint8_t stack[STACK], out[GRO_ROOM];
static ucontext_t here, there;
static uint64_t listing[MOST], told[GRO_TOLD];
static uint32_t d[8], a[8];
static uint8_t flags;
static uint32_t rack_d[16], rack_a[16];
static uint8_t rack_flags[2];
static const size_t starts[2] = {0, MOST};
static uint64_t answers[16];
static char text[GRO_TEXT];
static size_t length;
static unsigned operation, size;

static void nothing(void) {}
static void call_alu(void) { told[0] = alu_call((uint8_t)operation, (uint8_t)size, 0x81234567, 0x89ABCDEF, 31); }
static void call_translate(void) { recipe_translate((const uint8_t *)text, length, listing, MOST, told); }
static void call_answer(void) { told[0] = recipe_answer((const uint8_t *)text, length, out, GRO_ROOM); }
static void call_run_recipe(void) { recipe_run((const uint8_t *)text, length, d, a, &flags, told); }
static void call_run(void) { listing_run(listing, MOST, d, a, &flags, 0, 1000, told); }
static void call_rack(void) { rack_run(listing, MOST, rack_d, 16, rack_a, 16, rack_flags, 2, starts, 2, 1000, answers, 16, told); }
static void call_print(void) { told[0] = listing_print((uint8_t)size, listing, MOST, out, GRO_ROOM); }

/* The bytes that a call changed, from the deepest up; one that stayed as painted by chance counts with those below it. */
static size_t used(void (*call)(void)) {
    size_t at = 0;
    memset(stack, PAINT, STACK);
    getcontext(&there);
    there.uc_stack.ss_sp = stack;
    there.uc_stack.ss_size = STACK;
    there.uc_link = &here;
    makecontext(&there, call, 0);
    swapcontext(&here, &there);
    while (at < STACK && stack[at] == PAINT) at++;
    return STACK - at;
}

/* Every operation with every size, in every kind of source, one after the other: those that are refused are run alone. */
static size_t most_of_steps(void (*call)(void)) {
    size_t most = 0;
    unsigned kind, i;
    for (operation = 0; operation <= GRO_CHK + 1; operation++)
        for (size = 0; size < 4; size++)
            for (kind = 0; kind < 4; kind++) {
                size_t now;
                for (i = 0; i < MOST; i++) listing[i] = GRO_STEP_AT(operation, size, kind, i % 9, i % 8, i);
                now = used(call);
                if (now > most) most = now;
            }
    return most;
}

/* Sound recipes of each verb and width, with as many lines as there may be; then damaged ones. */
static size_t most_of_recipes(void (*call)(void)) {
    static const char *const verbs[] = {"clear\t0", "copy\t0\t1", "add\t0\t1", "sub\t0\t1", "neg\t0", "not\t0",
                                        "halve\t0", "down\t0", "up\t0", "swap\t0", "neg\t9", "copy\t0\t0"};
    size_t most = 0;
    unsigned verb, i, count;
    for (verb = 0; verb < sizeof verbs / sizeof *verbs; verb++)
        for (size = 1; size < 5; size++)
            for (count = 0; count < GRO_LINES + 2; count++) {
                size_t now, at = (size_t)sprintf(text, "width\t%u\n", size);
                for (i = 0; i < count; i++) at += (size_t)sprintf(text + at, "%s\n", verbs[verb]);
                length = at;
                now = used(call);
                if (now > most) most = now;
            }
    return most;
}

/* Whether it is within what the header says. */
static int show(const char *name, size_t bytes) {
    printf("%-18s%6lu\n", name, (unsigned long)bytes);
    return bytes <= SAID;
}

int main(int count, char **words) {
    size_t least = used(nothing);
    int good;
    memcpy(out, words, (size_t)count); /* the loader binds it here */
    good = show("alu_call", most_of_steps(call_alu) - least);
    good &= show("listing_run", most_of_steps(call_run) - least);
    good &= show("rack_run", most_of_steps(call_rack) - least);
    good &= show("listing_print", most_of_steps(call_print) - least);
    good &= show("recipe_translate", most_of_recipes(call_translate) - least);
    good &= show("recipe_answer", most_of_recipes(call_answer) - least);
    good &= show("recipe_run", most_of_recipes(call_run_recipe) - least);
    return !good;
}
