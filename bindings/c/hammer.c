/*
 * hammer [COUNT] [SEED]: random and damaged input for every function, each row in memory of just its size, so that a sanitizer or valgrind
 * sees a byte too many; what is told stands between guard numbers. No reading of document 01 is here (the Rust example hammer has one): one
 * function is held to another. What is translated and printed, or refused, is what recipe_answer prints; what is translated and run is what
 * recipe_run leaves; each box of a rack is what listing_run leaves. Lines are held to what they come from: a step's to the text, the one
 * that is told to the word at the place. Every refusal and every end must be met, and no other. The last line is 'N inputs, M differ';
 * status 1: one differs, or something was never met.
 */
#include "gromavelush.h"

#include <stdio.h>
#include <stdlib.h>
#include <string.h>

enum { SLOTS = GRO_SLOTS + 44, TEXT = GRO_TEXT + 176, OPERATIONS = GRO_CHK + 1, SIZES = GRO_LONG + 1, GUARD = 8, NUMBERS = 15 };

/* The numbers of the header, and how often each was met. */
struct counts {
    const char *what;
    unsigned many;
    uint64_t numbers[NUMBERS], met[NUMBERS];
};

static struct counts refusals = {"refusals (0 is acceptance)", 15, {0, 1, 2, 3, 4, 6, 7, 8, 9, 10, 11, 12, 13, 14, 15}, {0}};
static struct counts ends = {"ends", 4, {GRO_FINISHED, GRO_BUDGET, GRO_TRAPPED, GRO_REFUSED}, {0}};
static uint64_t seed, differing;

static uint64_t bits(void) {
    uint64_t z = seed += 0x9E3779B97F4A7C15u;
    z = (z ^ z >> 30) * 0xBF58476D1CE4E5B9u;
    z = (z ^ z >> 27) * 0x94D049BB133111EBu;
    return z ^ z >> 31;
}

static unsigned below(unsigned limit) { return (unsigned)(bits() % limit); }

static void agrees(int good, const char *what) {
    if (good) return;
    if (differing++ < 5) printf("DIFFERS: %s\n", what);
}

/* One more of that number; a failure if the header hasn't it. */
static void count(struct counts *of, uint64_t number) {
    unsigned i = 0;
    while (i < of->many && of->numbers[i] != number) i++;
    if (i < of->many) of->met[i]++;
    else agrees(0, of->what);
}

/* Memory of just that size, all of it set. */
static void *row(size_t bytes) {
    uint8_t *made = (uint8_t *)malloc(bytes ? bytes : 1);
    size_t i;
    if (!made) exit(2);
    for (i = 0; i < bytes; i++) made[i] = (uint8_t)bits();
    return made;
}

/* What a call tells: all ones before it, between guard numbers. */
static const uint64_t mark = 0xA5A5A5A5A5A5A5A5u;
static uint64_t *told_row(void) {
    uint64_t *told = (uint64_t *)row((GUARD + GRO_TOLD + GUARD) * sizeof *told) + GUARD;
    unsigned i;
    for (i = 0; i < GUARD; i++) told[-1 - (int)i] = told[GRO_TOLD + i] = mark;
    for (i = 0; i < GRO_TOLD; i++) told[i] = UINT64_MAX;
    return told;
}

/* After the call: behind the first places, which mean something, all are 0, and the guards as they were. */
enum { OF_RUN = 7, OF_TRANSLATION = 4, OF_RECIPE = 6, OF_RACK = 2 };
static void is_told(const uint64_t *told, unsigned many) {
    unsigned i, good = 1;
    for (i = many; i < GRO_TOLD; i++) good &= told[i] == 0;
    for (i = 0; i < GUARD; i++) good &= told[-1 - (int)i] == mark && told[GRO_TOLD + i] == mark;
    agrees((int)good, "what is told, where it has no meaning, or around it");
}

static void forget(uint64_t *told) { free(told - GUARD); }

struct state {
    uint32_t *d, *a;
    uint8_t *flags;
};

enum { REGISTERS = 8 * sizeof(uint32_t) };
static struct state some_state(void) {
    struct state made;
    made.d = (uint32_t *)row(REGISTERS);
    made.a = (uint32_t *)row(REGISTERS);
    made.flags = (uint8_t *)row(1);
    return made;
}

static struct state copy_of(struct state of) {
    struct state made = some_state();
    memcpy(made.d, of.d, REGISTERS);
    memcpy(made.a, of.a, REGISTERS);
    *made.flags = *of.flags;
    return made;
}

static int same_registers(struct state one, struct state other) {
    return !memcmp(one.d, other.d, REGISTERS) && !memcmp(one.a, other.a, REGISTERS);
}

static void drop(struct state of) {
    free(of.d);
    free(of.a);
    free(of.flags);
}

/* ---- operations */

static void try_operation(void) {
    uint8_t operation = (uint8_t)(below(8) ? below(OPERATIONS) : bits()), size = (uint8_t)(below(8) ? below(SIZES) : bits());
    uint32_t src = (uint32_t)(below(2) ? below(72) : bits()), dst = (uint32_t)bits();
    uint8_t flags = (uint8_t)bits();
    uint64_t answer = alu_call(operation, size, src, dst, flags);
    unsigned number = (unsigned)(answer >> 48 & 3);
    count(&refusals, number);
    if (operation > GRO_CHK || size > GRO_LONG) agrees(number == 2, "an unknown operation or size");
    if (number) agrees((answer & 0xFFFFFFFFFFFFu) == (uint64_t)(flags & 31) << 32, "a refusal");
    agrees(answer >> 54 == 0 && (answer >> 37 & 7) == 0, "bits that don't count");
}

/* ---- listings */

/* A step's word, with any line; some name no step. */
static uint64_t some_word(void) {
    static const uint8_t kinds[OPERATIONS] = {2, 2, 2, 2, 2, 2, 3, 2, 1, 1, 1, 1, 0, 0, 0, 0, 0, 1, 2, 1, 2, 1, 2, 1, 2, 1, 2, 1, 2, 2};
    unsigned operation = below(OPERATIONS), size = operation == GRO_CHK ? GRO_WORD : operation >= GRO_BTST ? GRO_LONG : 1 + below(2);
    uint64_t word = GRO_STEP_AT(operation, size, kinds[operation], 1 + below(7), below(8), bits());
    switch (below(64)) {
    case 0: return bits();
    case 1: return word ^ (uint64_t)1 << below(40);
    case 2: return word | bits() << 48;
    default: return word;
    }
}

/* The line that a run tells is that of the word at the place where it trapped or was refused; with 10 there is no such word. */
static void is_its_line(const uint64_t *listing, const uint64_t *told) {
    int has_one = told[0] == GRO_TRAPPED || (told[0] == GRO_REFUSED && told[1] != 10);
    agrees(told[6] == (has_one ? listing[told[2]] >> 40 & 255 : 0), "the line of an end");
}

/* The same run with other lines: all is the same but the line that is told. */
static void try_other_lines(uint64_t *listing, size_t length, struct state before, struct state after, size_t start, uint32_t budget, const uint64_t *told) {
    struct state state = copy_of(before);
    uint64_t *again = told_row();
    size_t i;
    for (i = 0; i < length; i++) listing[i] ^= (bits() & 255) << 40;
    listing_run(listing, length, state.d, state.a, state.flags, start, budget, again);
    is_told(again, OF_RUN), is_its_line(listing, again);
    agrees(!memcmp(told, again, 6 * sizeof *told), "what is told of a run with other lines");
    agrees(same_registers(after, state) && *after.flags == *state.flags, "the state of a run with other lines");
    forget(again), drop(state);
}

static void try_listing(void) {
    size_t length = below(SLOTS + 1), start = below(4) ? 0 : below(4) ? below(SLOTS) : (size_t)bits();
    size_t room = below(8) ? GRO_ROOM : below(400), i;
    uint64_t *listing = (uint64_t *)row(length * sizeof *listing), *told = told_row(), *begun = told_row(), *rest = told_row();
    struct state before = some_state(), whole = copy_of(before), halted = copy_of(before);
    uint8_t *out = (uint8_t *)row(room);
    uint32_t budget = (uint32_t)(below(2) ? below(SLOTS) : bits()), first;
    for (i = 0; i < length; i++) listing[i] = some_word();
    listing_run(listing, length, whole.d, whole.a, whole.flags, start, budget, told);
    count(&ends, told[0]);
    if (told[0] == GRO_REFUSED) count(&refusals, told[1]);
    first = told[4] ? below((unsigned)told[4]) : 0;
    listing_run(listing, length, halted.d, halted.a, halted.flags, start, first, begun);
    listing_run(listing, length, halted.d, halted.a, halted.flags, (size_t)begun[3], budget - first, rest);
    is_told(told, OF_RUN), is_told(begun, OF_RUN), is_told(rest, OF_RUN);
    is_its_line(listing, told), is_its_line(listing, begun);
    agrees(!memcmp(told, rest, 4 * sizeof *told) && told[6] == rest[6] && begun[4] == first, "a run in two");
    agrees(told[4] == first + rest[4] && told[5] == begun[5] + rest[5], "steps and clocks of a run in two");
    agrees(same_registers(whole, halted) && *whole.flags == *halted.flags, "the state of a run in two");
    agrees(listing_print((uint8_t)bits(), listing, length, out, room) <= room, "more is printed than there is room for");
    try_other_lines(listing, length, before, whole, start, budget, told);
    free(listing), forget(told), forget(begun), forget(rest), free(out), drop(before), drop(whole), drop(halted);
}

/* ---- racks */

/* Box i of the rows as they were is run alone: it is what the rack left of it. */
static void try_box(const uint64_t *listing, size_t length, struct state was, struct state left, size_t i, size_t start, uint32_t budget, const uint64_t *answer) {
    struct state alone = some_state();
    uint64_t *told = told_row();
    memcpy(alone.d, was.d + 8 * i, REGISTERS), memcpy(alone.a, was.a + 8 * i, REGISTERS);
    *alone.flags = was.flags[i];
    listing_run(listing, length, alone.d, alone.a, alone.flags, start, budget, told);
    count(&ends, told[0]);
    is_its_line(listing, told);
    agrees(!memcmp(told, answer, GRO_TOLD * sizeof *told), "what is told of a box");
    agrees(!memcmp(alone.d, left.d + 8 * i, REGISTERS) && !memcmp(alone.a, left.a + 8 * i, REGISTERS) && *alone.flags == left.flags[i], "a box");
    forget(told), drop(alone);
}

/* A row as long as so many boxes want it, or a word too short, or longer. */
static size_t some_length(size_t wanted) { return below(16) == 0 && wanted ? wanted - 1 : wanted + (below(4) ? 0 : below(12)); }

static void try_rack(void) {
    size_t length = below(24), boxes = below(8) ? below(6) : below(GRO_BOXES + 6), i, run;
    size_t d = some_length(8 * boxes), a = some_length(8 * boxes), places = some_length(boxes), words = some_length(GRO_TOLD * boxes);
    struct state was = {(uint32_t *)row(4 * d), (uint32_t *)row(4 * a), (uint8_t *)row(boxes)}, left = {(uint32_t *)row(4 * d), (uint32_t *)row(4 * a), (uint8_t *)row(boxes)};
    uint64_t *listing = (uint64_t *)row(8 * length), *answers = (uint64_t *)row(8 * words), *before = (uint64_t *)row(8 * words), *told = told_row();
    size_t *starts = (size_t *)row(places * sizeof *starts);
    uint32_t budget = (uint32_t)(below(2) ? below(24) : bits());
    int fits = boxes <= GRO_BOXES && d >= 8 * boxes && a >= 8 * boxes && places >= boxes && words >= GRO_TOLD * boxes;
    for (i = 0; i < length; i++) listing[i] = some_word();
    for (i = 0; i < places; i++) starts[i] = below(4) ? 0 : below(8) ? below((unsigned)length + 2) : (size_t)bits();
    memcpy(left.d, was.d, 4 * d), memcpy(left.a, was.a, 4 * a), memcpy(left.flags, was.flags, boxes), memcpy(before, answers, 8 * words);
    rack_run(listing, length, left.d, d, left.a, a, left.flags, boxes, starts, places, budget, answers, words, told);
    is_told(told, OF_RACK);
    count(&refusals, told[0]);
    run = fits ? boxes : 0;
    agrees(told[0] == (fits ? 0u : 15u) && told[1] == run, "whether a rack is run");
    for (i = 0; i < run; i++) try_box(listing, length, was, left, i, starts[i], budget, answers + GRO_TOLD * i);
    agrees(!memcmp(answers + GRO_TOLD * run, before + GRO_TOLD * run, 8 * (words - GRO_TOLD * run)), "spare slots");
    agrees(!memcmp(left.d + 8 * run, was.d + 8 * run, 4 * (d - 8 * run)) && !memcmp(left.a + 8 * run, was.a + 8 * run, 4 * (a - 8 * run)), "spare registers");
    agrees(!memcmp(left.flags + run, was.flags + run, boxes - run), "the flags of a refused rack");
    drop(was), drop(left), free(listing), free(answers), free(before), free(starts), forget(told);
}

/* ---- recipes */

enum { VERBS = 9, LINES = 2 * GRO_LINES };

/* A line behind a text: how many bytes. */
static size_t line(char *text, unsigned verb, unsigned a, unsigned b) {
    static const char *const verbs[VERBS + 1] = {"clear", "copy", "add", "sub", "neg", "not", "halve", "down", "up", "swap"};
    if (verb >= 1 && verb <= 3) return (size_t)sprintf(text, "%s\t%u\t%u\n", verbs[verb], a, b);
    return (size_t)sprintf(text, "%s\t%u\n", verbs[verb], a);
}

static size_t sound(char *text) {
    unsigned width = 1u << below(3), numbers = 8 / width, lines = below(GRO_LINES + 2), i;
    size_t at = (size_t)sprintf(text, "width\t%u\n", width);
    for (i = 0; i < lines; i++) {
        unsigned verb = below(VERBS), a = below(numbers), b = (a + 1 + below(numbers - 1)) % numbers;
        if (below(500) == 0) a = below(10);
        if (below(500) == 0) b = a;
        at += line(text + at, verb, a, b);
    }
    return at;
}

/* Of any width, verbs and numbers, and of too many lines; most are sound. */
static size_t by_hand(char *text) {
    unsigned lines = below(8) ? below(GRO_LINES + 1) : below(LINES + 1), wild = below(4) ? 256 : 4, i;
    size_t at = (size_t)sprintf(text, "width\t%u\n", below(8) ? 1u << below(3) : below(256));
    for (i = 0; i < lines; i++) {
        unsigned verb = below(VERBS), a = below(2), b = 1 - a;
        if (below(wild) == 0) verb = below(VERBS + 1);
        if (below(wild) == 0) a = below(2) ? below(10) : below(256);
        if (below(wild) == 0) b = below(2) ? a : below(256);
        at += line(text + at, verb, a, b);
    }
    return at;
}

/* A text of just its size. */
static uint8_t *made_of(const char *text, size_t length) { return (uint8_t *)memcpy(row(length), text, length); }

/* Sound, damaged, or of any bytes. */
static uint8_t *some_text(size_t *length) {
    static const char often[] = "\t\n 0123456789w";
    char text[TEXT];
    size_t i;
    *length = below(16) ? sound(text) : 0;
    if (*length == 0)
        for (*length = below(TEXT), i = 0; i < *length; i++) text[i] = (char)bits();
    if (below(2) && *length) text[below((unsigned)*length)] = often[below(sizeof often - 1)];
    if (below(8) == 0) *length = below((unsigned)*length + 1);
    return made_of(text, *length);
}

/* What is printed of a text that was translated, or refused by its own fault. */
static size_t printed(const uint8_t *text, const uint64_t *listing, const uint64_t *told, uint8_t *out, size_t room) {
    char refused[64];
    size_t many;
    if (told[0] == 0) return listing_print((uint8_t)(text[6] - '0'), listing, (size_t)told[2], out, room);
    many = (size_t)sprintf(refused, "refused\t%lu\t%lu\t%lu\n", (unsigned long)told[0], (unsigned long)told[1], (unsigned long)told[3]);
    if (many > room) many = room;
    memcpy(out, refused, many);
    return many;
}

/* Each step of a sound text has its text line, and 0 in the reserved bytes. A copy has two steps for each long word, any other verb one. */
static void try_lines(const uint8_t *text, size_t length, const uint64_t *listing, size_t many) {
    const uint8_t *at = text + sizeof "width\t1", *end = text + length;
    unsigned width = text[6] - '0', number = 1, left;
    size_t i = 0;
    while (at < end) {
        number++;
        for (left = memcmp(at, "co", 2) ? width : 2 * width; left; left--, i++) agrees(i < many && listing[i] >> 40 == number, "the line of a step");
        at = (const uint8_t *)memchr(at, '\n', (size_t)(end - at)) + 1;
    }
    agrees(i == many, "the steps of all lines");
}

/* What is translated and printed, and what is answered: into rows of the same length. */
static void try_answer(const uint8_t *text, size_t length) {
    size_t room = below(4) ? GRO_ROOM : below(600), slots = below(4) ? GRO_STEPS : below(SLOTS + 1), i, wrote;
    uint8_t *out = (uint8_t *)row(room), *again = (uint8_t *)row(room);
    uint64_t *listing = (uint64_t *)row(slots * sizeof *listing), *before = (uint64_t *)row(slots * sizeof *before), *told = told_row();
    memcpy(before, listing, slots * sizeof *before);
    recipe_translate(text, length, listing, slots, told);
    is_told(told, OF_TRANSLATION);
    count(&refusals, told[0]);
    agrees(told[2] <= slots && (told[0] == 0 || told[2] == 0), "the number of steps");
    agrees((told[1] == 0) == (told[0] == 0 || told[0] == 9), "the line of a refusal");
    agrees((told[3] == 0) == (told[0] < 11), "the column of a refusal");
    for (i = (size_t)told[2]; i < slots; i++) agrees(listing[i] == before[i], "a slot past the steps");
    if (told[0] == 0) try_lines(text, length, listing, (size_t)told[2]);
    wrote = recipe_answer(text, length, out, room);
    agrees(wrote <= room, "more is answered than there is room for");
    if (told[0] == 9) agrees(wrote == 0 || *out == 'w', "too few slots of a text that is refused");
    else agrees(printed(text, listing, told, again, room) == wrote && !memcmp(out, again, wrote), "an answer");
    free(out), free(again), free(listing), free(before), forget(told);
}

/* What is translated and run, and what is run. */
static void try_run(const uint8_t *text, size_t length) {
    uint64_t *listing = (uint64_t *)row(GRO_STEPS * sizeof *listing), *made = told_row(), *ran = told_row(), *told = told_row();
    struct state whole = some_state(), stepped = copy_of(whole);
    recipe_translate(text, length, listing, GRO_STEPS, made);
    recipe_run(text, length, whole.d, whole.a, whole.flags, told);
    listing_run(listing, (size_t)made[2], stepped.d, stepped.a, stepped.flags, 0, GRO_STEPS, ran);
    is_told(made, OF_TRANSLATION), is_told(told, OF_RECIPE), is_told(ran, OF_RUN);
    agrees(made[0] == told[0] && made[1] == told[1] && made[3] == told[5], "the refusal of a recipe");
    agrees(told[3] == ran[4] && told[4] == ran[5], "steps and clocks of a recipe");
    agrees(same_registers(whole, stepped), "the registers after a recipe");
    agrees(*whole.flags == (*stepped.flags & told[2]), "the flags after a recipe");
    free(listing), forget(made), forget(ran), forget(told), drop(whole), drop(stepped);
}

static void try_text(void) {
    size_t length;
    uint8_t *text = some_text(&length);
    try_answer(text, length);
    try_run(text, length);
    free(text);
}

static void try_by_hand(void) {
    char room[TEXT];
    size_t length = by_hand(room);
    uint8_t *text = made_of(room, length);
    try_answer(text, length);
    free(text);
}

static int all_met(const struct counts *of) {
    unsigned i, good = 1;
    printf("%s:", of->what);
    for (i = 0; i < of->many; i++) {
        printf(" %lu: %lu", (unsigned long)of->numbers[i], (unsigned long)of->met[i]);
        good &= of->met[i] != 0;
    }
    puts(good ? "" : "  NEVER MET: one of these");
    return (int)good;
}

int main(int argc, char **argv) {
    unsigned long inputs = argc > 1 ? strtoul(argv[1], NULL, 10) : 100000, i;
    int met;
    seed = argc > 2 ? strtoul(argv[2], NULL, 10) : 1;
    for (i = 0; i < inputs; i++) {
        switch (i % 8) {
        case 0: try_text(); break;
        case 1: try_by_hand(); break;
        case 2: try_listing(); break;
        case 3: try_rack(); break;
        default: try_operation(); break;
        }
    }
    met = all_met(&refusals);
    met &= all_met(&ends);
    printf("%lu inputs, %lu differ\n", inputs, (unsigned long)differing);
    return !met || differing != 0;
}
