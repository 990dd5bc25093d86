/*
 * Every function of gromavelush.h, with guard bytes around every row that it is lent. The last line is 'N checks, 0 failed'; the
 * status is 0 only then.
 */
#include "gromavelush.h"

#include <stdio.h>
#include <stdlib.h>
#include <string.h>

enum { GUARD = 64, MARK = 0xA5, MOST = GRO_SLOTS + 44, REGISTERS = 8 };

static const char example[] = "width\t2\nadd\t0\t1\nneg\t1\n";
static const char printed[] =
    "width\t2\t4\n0\tADD\tL\tD0\tD2\t2\n1\tADDX\tL\tD1\tD3\t2\n2\tNEG\tL\t-\tD2\t3\n3\tNEGX\tL\t-\tD3\t3\nclocks\t28\n";

/* The example's steps: two of text line 2, two of 3. */
enum { STEPS = 4 };
static const uint64_t steps[STEPS] = {
    GRO_STEP_AT(GRO_ADD, GRO_LONG, GRO_DATA, 0, 2, 2),
    GRO_STEP_AT(GRO_ADDX, GRO_LONG, GRO_DATA, 1, 3, 2),
    GRO_STEP_AT(GRO_NEG, GRO_LONG, GRO_NONE, 0, 2, 3),
    GRO_STEP_AT(GRO_NEGX, GRO_LONG, GRO_NONE, 0, 3, 3),
};

static unsigned long checks, failed;

static void check(int good, const char *what, unsigned long at) {
    checks++;
    if (good) return;
    failed++;
    printf("FAILED: %s (%lu)\n", what, at);
}

/* ---- rows between guards */

/* A row of so many bytes, all of them marked. */
static void *row(size_t bytes) {
    uint8_t *room = (uint8_t *)malloc(bytes + 2 * GUARD);
    if (!room) exit(2);
    memset(room, MARK, bytes + 2 * GUARD);
    return room + GUARD;
}

static int marked(const void *bytes, size_t count) {
    const uint8_t *at = (const uint8_t *)bytes;
    size_t i;
    for (i = 0; i < count; i++)
        if (at[i] != MARK) return 0;
    return 1;
}

/* The guards are as they were. The row goes. */
static void done(void *of, size_t bytes, const char *what, unsigned long at) {
    uint8_t *bytes_of = (uint8_t *)of;
    check(marked(bytes_of - GUARD, GUARD) && marked(bytes_of + bytes, GUARD), what, at);
    free(bytes_of - GUARD);
}

/* A row of those bytes. */
static void *copied(const void *of, size_t bytes) { return memcpy(row(bytes), of, bytes); }

/* It is lent to be read: it stays, and so do its guards. The row goes. */
static void kept(void *copy, const void *of, size_t bytes, const char *what, unsigned long at) {
    check(memcmp(copy, of, bytes) == 0, what, at);
    done(copy, bytes, what, at);
}

/* What a call tells: GRO_TOLD numbers, all ones before it, between guards. */
static uint64_t *told_row(void) {
    size_t bytes = GRO_TOLD * sizeof(uint64_t);
    return (uint64_t *)memset(row(bytes), 0xFF, bytes);
}

/* All of it is as it should be: in should the places without a meaning are 0. The row goes. */
static void tells(uint64_t *told, const uint64_t *should, const char *what, unsigned long at) {
    check(memcmp(told, should, GRO_TOLD * sizeof *told) == 0, what, at);
    done(told, GRO_TOLD * sizeof *told, "around what is told", at);
}

/* ---- operations */

static void is(uint64_t answer, uint32_t result, unsigned flags, unsigned clocks, const char *what) {
    check(answer == ((uint64_t)result | (uint64_t)flags << 32 | (uint64_t)clocks << 40), what, 0);
}

static void test_operations(void) {
    unsigned n;
    is(alu_call(GRO_ADD, GRO_BYTE, 0x01, 0x7F, 0), 0x80, GRO_N | GRO_V, 4, "sum 1");
    is(alu_call(GRO_ADD, GRO_BYTE, 0x01, 0xFF, 0), 0x00, GRO_X | GRO_Z | GRO_C, 4, "sum 2");
    is(alu_call(GRO_ADDX, GRO_LONG, 0, 0xFFFFFFFF, 0xF0), 0, GRO_X | GRO_C, 4, "sum 3, with bits above X");
    is(alu_call(GRO_ADD, GRO_LONG, 1, 1, 0), 2, 0, 4, "long ADD, which has 8 as a step");
    is(alu_call(GRO_BCLR, GRO_LONG, 3, 8, 0), 0, 0, 10, "BCLR below bit 16, which has 8 as a step");
    is(alu_call(GRO_ROL, GRO_BYTE, 8, 0x81, 0), 0x81, GRO_N | GRO_C, 22, "sum 9");
    check(alu_call(GRO_CHK, GRO_WORD, 1, 0x8000, 0) >> 52 == 2, "sum 11", 0);
    check(alu_call(GRO_ROXL, GRO_BYTE, 64, 1, 31) == ((uint64_t)31 << 32 | (uint64_t)1 << 48), "refused with 1", 0);
    for (n = 0; n < 256; n++) {
        uint64_t refused = (uint64_t)2 << 48;
        if (n > GRO_CHK) check(alu_call((uint8_t)n, GRO_LONG, 1, 2, 0) == refused, "no operation", n);
        if (n > GRO_LONG) check(alu_call(GRO_ADD, (uint8_t)n, 1, 2, 0) == refused, "no size", n);
    }
}

/* ---- words */

static void test_words(void) {
    static const uint64_t words[STEPS] = {0x0000020200020200u, 0x0000020301020203u, 0x000003020000020Du, 0x000003030000020Eu};
    check(memcmp(steps, words, sizeof words) == 0, "the words of the example", 0);
    check(GRO_STEP(1, 2, 3, 4, 5) == 0x0504030201u, "a word without a line", 0);
    check(GRO_STEP_AT(1, 2, 3, 4, 5, 6) == 0x060504030201u, "a word with a line", 6);
    check(GRO_STEP_AT(0, 0, 0, 0, 0, 0x1FF) == 0xFF0000000000u, "the low 8 bits of a line", 0x1FF);
}

/* ---- translating */

/* Where a text is refused, and with which number; all 0 where it isn't. */
struct refused {
    uint64_t number, line, column;
};

static const struct refused none = {0, 0, 0}, no_room = {9, 0, 0};

/* A text into so many slots: it is refused, or those words are laid. */
static void translate_one(const char *text, size_t length, size_t slots, struct refused at, const uint64_t *words, size_t many) {
    const uint64_t should[GRO_TOLD] = {at.number, at.line, many, at.column};
    uint64_t *listing = (uint64_t *)row(slots * sizeof *listing), *told = told_row();
    uint8_t *copy = (uint8_t *)copied(text, length);
    recipe_translate(copy, length, listing, slots, told);
    tells(told, should, "what is told of a translation", (unsigned long)slots);
    check(memcmp(listing, words, many * sizeof *words) == 0, "the steps", (unsigned long)slots);
    check(marked(listing + many, (slots - many) * sizeof *listing), "slots past the steps", (unsigned long)slots);
    done(listing, slots * sizeof *listing, "around a listing", (unsigned long)slots);
    kept(copy, text, length, "a text", (unsigned long)length);
}

/* Whatever slots there are. */
static void refuse_one(const char *text, uint64_t number, uint64_t line, uint64_t column) {
    const struct refused at = {number, line, column};
    translate_one(text, strlen(text), 0, at, steps, 0);
    translate_one(text, strlen(text), MOST, at, steps, 0);
}

/* A recipe of copies at width 4, and its steps, as many as GRO_STEPS where it has GRO_LINES lines. Line i is text line i + 2. */
static size_t copies(char *text, uint64_t *words, size_t lines) {
    size_t at = (size_t)sprintf(text, "width\t4\n"), many = 0, i;
    for (i = 0; i < lines; i++) {
        unsigned k;
        at += (size_t)sprintf(text + at, "copy\t0\t1\n");
        for (k = 0; k < 4 && many < GRO_STEPS; k++) {
            words[many++] = GRO_STEP_AT(GRO_CLR, GRO_LONG, GRO_NONE, 0, 4 + k, i + 2);
            words[many++] = GRO_STEP_AT(GRO_ADD, GRO_LONG, GRO_DATA, k, 4 + k, i + 2);
        }
    }
    return many;
}

static void test_translating(void) {
    static char text[2 * GRO_TEXT];
    static uint64_t words[GRO_STEPS];
    size_t length, slots;
    for (length = 0; length < sizeof example; length++) {
        const struct refused width = {4, 1, 0}, second = {14, 2, length - 8 + 1}, third = {14, 3, length - 16 + 1};
        int whole = length == 8 || length == 16 || length == 22;
        if (whole) translate_one(example, length, MOST, none, steps, length == 8 ? 0 : length == 16 ? 2 : STEPS);
        else translate_one(example, length, MOST, length < 8 ? width : length < 16 ? second : third, steps, 0);
    }
    check(copies(text, words, GRO_LINES) == GRO_STEPS, "a recipe of as many steps as there may be", 0);
    for (slots = 0; slots <= MOST; slots++) {
        translate_one(example, sizeof example - 1, slots, slots < STEPS ? no_room : none, steps, slots < STEPS ? 0 : STEPS);
        translate_one(text, strlen(text), slots, slots < GRO_STEPS ? no_room : none, words, slots < GRO_STEPS ? 0 : GRO_STEPS);
    }
    copies(text, words, GRO_LINES + 1);
    refuse_one(text, 8, GRO_LINES + 2, 0);
    copies(text, words, GRO_TEXT / 8);
    refuse_one(text, 8, GRO_LINES + 2, 0);
    refuse_one("width\t3\nadd\t0\t1\n", 4, 1, 0);
    refuse_one("width\t12\nadd\t0\t1\n", 4, 1, 0);
    refuse_one("width\t2\nadd\t0\t1\nswap\t0\n", 11, 3, 1);
    refuse_one("width\t2\nadd\t0\t1\nadd\t0\n", 12, 3, 6);
    refuse_one("width\t2\nadd\t0\t1\nup\t0\t1\n", 12, 3, 6);
    refuse_one("width\t2\nadd\t0\t1\nadd\t0\t10\n", 13, 3, 7);
    refuse_one("width\t2\nadd\t0\t1\nup\t4\n", 6, 3, 0);
    refuse_one("width\t2\nadd\t0\t1\ncopy\t3\t3\n", 7, 3, 0);
}

/* ---- runs */

static void run_one(const uint64_t *listing, size_t length, size_t start, uint32_t budget, const uint64_t *should, uint32_t d2, unsigned x) {
    uint64_t *copy = (uint64_t *)copied(listing, length * sizeof *copy), *told = told_row();
    uint32_t *d = (uint32_t *)row(REGISTERS * sizeof *d), *a = (uint32_t *)row(REGISTERS * sizeof *a);
    uint8_t *flags = (uint8_t *)row(1);
    unsigned i;
    for (i = 0; i < REGISTERS; i++) d[i] = a[i] = i == 0 ? 1 : i == 2 ? 0xFFFFFFFF : 0;
    *flags = 0xE0;
    listing_run(copy, length, d, a, flags, start, budget, told);
    tells(told, should, "what is told of a run", budget);
    check(d[2] == d2 && a[2] == 0xFFFFFFFF && *flags >> 4 == x, "the state after a run", budget);
    kept(copy, listing, length * sizeof *copy, "a listing", budget);
    done(d, REGISTERS * sizeof *d, "around the data registers", budget);
    done(a, REGISTERS * sizeof *a, "around the address registers", budget);
    done(flags, 1, "around the flags", budget);
}

static void test_runs(void) {
    uint64_t listing[MOST] = {GRO_STEP(GRO_ADD, GRO_LONG, GRO_DATA, 0, 2), GRO_STEP(GRO_CHK, GRO_WORD, GRO_DATA, 3, 0)};
    const uint64_t budget[GRO_TOLD] = {GRO_BUDGET, 0, 0, 1, 1, 8}, trapped[GRO_TOLD] = {GRO_TRAPPED, 1, 1, 2, 2, 16};
    const uint64_t none[GRO_TOLD] = {GRO_BUDGET}, past[GRO_TOLD] = {GRO_REFUSED, 10, GRO_SLOTS + 1, GRO_SLOTS + 1};
    const uint64_t refused[GRO_TOLD] = {GRO_REFUSED, 2, GRO_SLOTS - 1, GRO_SLOTS - 1}, end[GRO_TOLD] = {GRO_FINISHED, 0, 0, GRO_SLOTS};
    listing[GRO_SLOTS - 1] = GRO_STEP(GRO_CLR, GRO_LONG, GRO_SMALL, 1, 2);
    run_one(listing, 2, 0, 0, none, 0xFFFFFFFF, 0);
    run_one(listing, 2, 0, 1, budget, 0, 1);
    run_one(listing, 2, 0, 9, trapped, 0, 1);
    run_one(listing, MOST, GRO_SLOTS - 1, 9, refused, 0xFFFFFFFF, 0);
    run_one(listing, MOST, GRO_SLOTS, 0, end, 0xFFFFFFFF, 0);
    run_one(listing, MOST, GRO_SLOTS + 1, 9, past, 0xFFFFFFFF, 0);
}

/* A step of line 7, one with each line that there is, which traps, or is refused, or names no step, and one of line 9. */
static void test_any_line(void) {
    uint64_t listing[3] = {GRO_STEP_AT(GRO_ADD, GRO_LONG, GRO_DATA, 0, 2, 7), 0, GRO_STEP_AT(GRO_ADD, GRO_LONG, GRO_DATA, 0, 2, 9)};
    unsigned line;
    for (line = 0; line < 256; line++) {
        const uint64_t trapped[GRO_TOLD] = {GRO_TRAPPED, 1, 1, 2, 2, 16, line}, refused[GRO_TOLD] = {GRO_REFUSED, 2, 1, 1, 1, 8, line};
        listing[1] = GRO_STEP_AT(GRO_CHK, GRO_WORD, GRO_DATA, 3, 0, line);
        run_one(listing, 3, 0, 9, trapped, 0, 1);
        listing[1] |= (uint64_t)0xABCD << 48;
        run_one(listing, 3, 0, 9, trapped, 0, 1);
        listing[1] = GRO_STEP_AT(GRO_CHK, GRO_LONG, GRO_DATA, 3, 0, line);
        run_one(listing, 3, 0, 9, refused, 0, 1);
        listing[1] = GRO_STEP_AT(GRO_ADD, GRO_LONG, GRO_NONE, 0, 0, line);
        run_one(listing, 3, 0, 9, refused, 0, 1);
    }
}

/* A line is told with a trap and a refusal of a step, and nowhere else. */
static void test_lines(void) {
    const uint64_t listing[3] = {GRO_STEP_AT(GRO_ADD, GRO_LONG, GRO_DATA, 0, 2, 7), GRO_STEP_AT(GRO_CHK, GRO_WORD, GRO_DATA, 3, 0, 8),
                                 GRO_STEP_AT(GRO_ADD, GRO_LONG, GRO_DATA, 0, 2, 9)};
    const uint64_t trapped[GRO_TOLD] = {GRO_TRAPPED, 1, 1, 2, 2, 16, 8}, budget[GRO_TOLD] = {GRO_BUDGET, 0, 0, 1, 1, 8};
    const uint64_t end[GRO_TOLD] = {GRO_FINISHED, 0, 0, 3, 1, 8}, past[GRO_TOLD] = {GRO_REFUSED, 10, 4, 4};
    const uint64_t nameless = 0x0000070000000000u, refused[GRO_TOLD] = {GRO_REFUSED, 2, 0, 0, 0, 0, 7};
    run_one(listing, 3, 0, 9, trapped, 0, 1);
    run_one(listing, 3, 0, 1, budget, 0, 1);
    run_one(listing, 3, 2, 9, end, 0, 1);
    run_one(listing, 3, 4, 9, past, 0xFFFFFFFF, 0);
    run_one(&nameless, 1, 0, 9, refused, 0xFFFFFFFF, 0);
    test_any_line();
}

/* ---- racks */

/* A rack's rows between guards, and how many elements each has. A box's registers tell its place. */
struct lengths {
    size_t boxes, d, a, starts, answers;
};

struct rack {
    uint32_t *d, *a;
    uint8_t *flags;
    size_t *starts;
    uint64_t *answers;
};

/* From the first place, from the second, at the end, past it. */
static size_t start_of(size_t box) {
    static const size_t starts[5] = {0, 0, 1, STEPS, STEPS + 1};
    return starts[box % 5];
}

static struct rack rack_of(struct lengths of) {
    struct rack made;
    size_t i;
    made.d = (uint32_t *)row(of.d * sizeof *made.d), made.a = (uint32_t *)row(of.a * sizeof *made.a);
    made.flags = (uint8_t *)row(of.boxes), made.starts = (size_t *)row(of.starts * sizeof *made.starts);
    made.answers = (uint64_t *)row(of.answers * sizeof *made.answers);
    for (i = 0; i < of.d; i++) made.d[i] = (uint32_t)(i * 0x10000001u);
    for (i = 0; i < of.a; i++) made.a[i] = (uint32_t)i;
    for (i = 0; i < of.boxes; i++) made.flags[i] = (uint8_t)i;
    for (i = 0; i < of.starts; i++) made.starts[i] = start_of(i);
    return made;
}

static void rack_done(struct rack of, struct lengths is, unsigned long at) {
    done(of.d, is.d * sizeof *of.d, "around the data registers of a rack", at);
    done(of.a, is.a * sizeof *of.a, "around the address registers of a rack", at);
    done(of.flags, is.boxes, "around the flags of a rack", at);
    done(of.starts, is.starts * sizeof *of.starts, "around the start places of a rack", at);
    done(of.answers, is.answers * sizeof *of.answers, "around the slots of a rack", at);
}

/* Whether two rows of so many elements are alike. */
static int alike(const void *one, const void *other, size_t many, size_t bytes) { return memcmp(one, other, many * bytes) == 0; }

/* Rows of so many elements: each box is what listing_run makes of it, and what is spare stays; or all stays, and it is refused. */
static void rack_one(size_t boxes, size_t d, size_t a, size_t starts, size_t answers, uint32_t budget, int refused) {
    const struct lengths is = {boxes, d, a, starts, answers};
    struct rack ran = rack_of(is), should = rack_of(is);
    uint64_t *told = told_row(), tell[GRO_TOLD] = {0};
    size_t run = refused ? 0 : boxes, i;
    if (refused) tell[0] = 15;
    tell[1] = run;
    rack_run(steps, STEPS, ran.d, d, ran.a, a, ran.flags, boxes, ran.starts, starts, budget, ran.answers, answers, told);
    tells(told, tell, "what is told of a rack", (unsigned long)boxes);
    for (i = 0; i < run; i++)
        listing_run(steps, STEPS, should.d + 8 * i, should.a + 8 * i, should.flags + i, start_of(i), budget, should.answers + 8 * i);
    check(alike(ran.d, should.d, d, sizeof *ran.d), "the data registers of a rack", (unsigned long)boxes);
    check(alike(ran.a, should.a, a, sizeof *ran.a), "the address registers of a rack", (unsigned long)boxes);
    check(alike(ran.flags, should.flags, boxes, 1), "the flags of a rack", (unsigned long)boxes);
    check(alike(ran.starts, should.starts, starts, sizeof *ran.starts), "the start places of a rack", (unsigned long)boxes);
    check(alike(ran.answers, should.answers, answers, sizeof *ran.answers), "the slots of a rack", (unsigned long)boxes);
    rack_done(ran, is, (unsigned long)boxes), rack_done(should, is, (unsigned long)boxes);
}

/* A trap, a spent budget, a word that names no step behind a step and at once, a start past the end. */
static void test_lines_of_a_rack(void) {
    enum { BOXES = 5 };
    const uint64_t words[4] = {GRO_STEP_AT(GRO_ADDQ, GRO_WORD, GRO_SMALL, 8, 1, 7), GRO_STEP_AT(GRO_CHK, GRO_WORD, GRO_DATA, 0, 1, 8),
                               GRO_STEP_AT(GRO_CLR, GRO_WORD, GRO_NONE, 0, 1, 9), GRO_STEP_AT(255, 0, 0, 0, 0, 255)};
    const uint64_t should[BOXES][GRO_TOLD] = {{GRO_TRAPPED, 1, 1, 2, 2, 12, 8},
                                              {GRO_BUDGET, 0, 0, 3, 2, 14},
                                              {GRO_REFUSED, 2, 3, 3, 1, 4, 255},
                                              {GRO_REFUSED, 2, 3, 3, 0, 0, 255},
                                              {GRO_REFUSED, 10, 5, 5}};
    const size_t starts[BOXES] = {0, 1, 2, 3, 5};
    uint32_t d[BOXES * REGISTERS] = {0}, a[BOXES * REGISTERS] = {0};
    uint64_t answers[BOXES * GRO_TOLD] = {0}, told[GRO_TOLD] = {0};
    uint8_t flags[BOXES] = {0};
    unsigned i;
    for (i = 0; i < BOXES; i++) d[REGISTERS * i] = 10, d[REGISTERS * i + 1] = 5;
    rack_run(words, 4, d, BOXES * REGISTERS, a, BOXES * REGISTERS, flags, BOXES, starts, BOXES, 2, answers, BOXES * GRO_TOLD, told);
    check(told[0] == 0 && told[1] == BOXES, "a rack with lines", BOXES);
    check(alike(answers, should, BOXES * GRO_TOLD, sizeof *answers), "what is told of each box", BOXES);
}

static void test_racks(void) {
    size_t boxes, words;
    for (boxes = 0; boxes <= GRO_BOXES + 2; boxes++) {
        words = boxes * GRO_TOLD;
        rack_one(boxes, words, words, boxes, words, (uint32_t)boxes % 6, boxes > GRO_BOXES);
        rack_one(boxes, words + 9, words + 1, boxes + 2, words + 7, 100, boxes > GRO_BOXES);
        if (boxes == 0) continue;
        rack_one(boxes, words - 1, words, boxes, words, 100, 1);
        rack_one(boxes, words, words - 1, boxes, words, 100, 1);
        rack_one(boxes, words, words, boxes - 1, words, 100, 1);
        rack_one(boxes, words, words, boxes, words - 1, 100, 1);
    }
    rack_one(GRO_BOXES + 1, 0, 0, 0, 0, 100, 1);
    rack_one(0, 56, 56, 7, 56, 100, 0);
}

/* ---- printing */

/* Into so much room: as many bytes as there is room for, and no other byte touched. */
static void print_one(size_t room) {
    size_t length = strlen(printed), most = room < length ? room : length, wrote, answered;
    uint8_t *out = (uint8_t *)row(room), *again = (uint8_t *)row(room), *text = (uint8_t *)copied(example, sizeof example - 1);
    uint64_t *listing = (uint64_t *)copied(steps, sizeof steps);
    wrote = listing_print(2, listing, STEPS, out, room);
    answered = recipe_answer(text, sizeof example - 1, again, room);
    check(wrote == most && memcmp(out, printed, most) == 0 && marked(out + most, room - most), "what is printed", (unsigned long)room);
    check(answered == most && memcmp(out, again, room) == 0, "what is answered", (unsigned long)room);
    kept(listing, steps, sizeof steps, "a listing", (unsigned long)room);
    kept(text, example, sizeof example - 1, "a text", (unsigned long)room);
    done(out, room, "around what is printed", (unsigned long)room);
    done(again, room, "around what is answered", (unsigned long)room);
}

static void test_printing(void) {
    uint64_t longest[MOST];
    uint8_t *out = (uint8_t *)row(GRO_ROOM);
    size_t room, wrote;
    unsigned i;
    for (room = 0; room <= sizeof printed + 8; room++) print_one(room);
    for (i = 0; i < MOST; i++) longest[i] = GRO_STEP_AT(GRO_ADDA, GRO_LONG, GRO_ADDRESS, 255, 255, 255) | (uint64_t)0xABCD << 48;
    wrote = listing_print(255, longest, MOST, out, GRO_ROOM);
    check(wrote < GRO_ROOM && memcmp(out + wrote - 14, "\t255\nclocks\t0\n", 14) == 0, "room for any listing", (unsigned long)wrote);
    check(marked(out + wrote, GRO_ROOM - wrote), "behind what is printed", 0);
    done(out, GRO_ROOM, "around what is printed", 0);
}

/* ---- recipes on a state */

static void run_recipe_one(const char *text, const uint64_t *should, uint32_t d2, uint32_t d3, unsigned flags_after) {
    uint32_t *d = (uint32_t *)row(REGISTERS * sizeof *d), *a = (uint32_t *)row(REGISTERS * sizeof *a);
    uint64_t *told = told_row();
    uint8_t *flags = (uint8_t *)row(1), *copy = (uint8_t *)copied(text, strlen(text));
    unsigned i;
    for (i = 0; i < REGISTERS; i++) d[i] = a[i] = i == 0 ? 1 : i == 2 ? 0xFFFFFFFF : 0;
    *flags = 0xFF;
    recipe_run(copy, strlen(text), d, a, flags, told);
    tells(told, should, "what is told of a recipe", d2);
    check(d[0] == 1 && d[2] == d2 && d[3] == d3 && a[2] == 0xFFFFFFFF && *flags == flags_after, "the state after a recipe", *flags);
    kept(copy, text, strlen(text), "a text", d2);
    done(d, REGISTERS * sizeof *d, "around the data registers", d2);
    done(a, REGISTERS * sizeof *a, "around the address registers", d2);
    done(flags, 1, "around the flags", d2);
}

static void test_recipes(void) {
    const uint64_t sum_12[GRO_TOLD] = {0, 0, 31, 4, 28}, refused[GRO_TOLD] = {6, 2, 31, 0, 0}, open[GRO_TOLD] = {0, 0, 16, 2, 20};
    const uint64_t slip[GRO_TOLD] = {12, 2, 31, 0, 0, 8};
    run_recipe_one(example, sum_12, 0, 0xFFFFFFFF, GRO_X | GRO_N | GRO_C);
    run_recipe_one("width\t4\nadd\t0\t2\n", refused, 0xFFFFFFFF, 0, 31);
    run_recipe_one("width\t4\nadd\t0 1\n", slip, 0xFFFFFFFF, 0, 31);
    run_recipe_one("width\t2\nup\t1\n", open, 0xFFFFFFFE, 1, 0);
}

int main(void) {
    test_operations();
    test_words();
    test_translating();
    test_runs();
    test_lines();
    test_racks();
    test_lines_of_a_rack();
    test_printing();
    test_recipes();
    printf("%lu checks, %lu failed\n", checks, failed);
    return failed != 0;
}
