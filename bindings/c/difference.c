/*
 * Two readings of a counter, and what was counted between them.
 *
 *   difference EARLIER LATER
 *
 * Each is 1, 2 or 4 long words of 8 hexadecimal digits, the highest first, with blanks, tabs or underscores between. Without
 * arguments the two stand on the first two lines of standard input. Status 2: they cannot be read.
 */
#include "gromavelush.h"

#include <stdio.h>
#include <stdlib.h>
#include <string.h>

enum { MOST = 4, LINE = 256 };

/* A counter's long words, the lowest first as in the registers, and how many there are. */
struct counter {
    uint32_t words[MOST];
    unsigned width;
};

static void stop(const char *why, const char *what) {
    fprintf(stderr, "difference: %s: \"%s\"\n", why, what);
    exit(2);
}

static int digit(char c) {
    static const char digits[] = "0123456789abcdefABCDEF";
    const char *at = c ? strchr(digits, c) : NULL;
    int value = at ? (int)(at - digits) : -1;
    return value < 16 ? value : value - 6;
}

/* Eight digits at text; they must be followed by no ninth. */
static uint32_t word(const char *text, const char *whole) {
    uint32_t value = 0;
    int i;
    for (i = 0; i < 8; i++) {
        if (digit(text[i]) < 0) stop("a long word has 8 hexadecimal digits", whole);
        value = value << 4 | (uint32_t)digit(text[i]);
    }
    if (!strchr("_ \t\r\n", text[8])) stop("a long word has 8 hexadecimal digits", whole);
    return value;
}

static struct counter read_counter(const char *text) {
    struct counter got = {{0, 0, 0, 0}, 0};
    const char *at = text + strspn(text, "_ \t\r\n");
    while (*at) {
        unsigned i;
        if (got.width == MOST) stop("a counter has 1, 2 or 4 long words", text);
        for (i = got.width++; i > 0; i--) got.words[i] = got.words[i - 1];
        got.words[0] = word(at, text);
        at += 8 + strspn(at + 8, "_ \t\r\n");
    }
    if (got.width == 0 || got.width == 3) stop("a counter has 1, 2 or 4 long words", text);
    return got;
}

/* The next line of standard input, without its end; a longer one cannot be a counter. */
static char *line(char *room) {
    if (!fgets(room, LINE, stdin)) stop("two counters are wanted, the earlier and the later", "standard input");
    if (strlen(room) == LINE - 1) stop("a line is too long", room);
    room[strcspn(room, "\r\n")] = 0;
    return room;
}

static void show(const char *name, const uint32_t *words, unsigned width) {
    unsigned i;
    printf("%s", name);
    for (i = width; i > 0; i--) printf("%08X%s", (unsigned)words[i - 1], i > 1 ? "_" : "\n");
}

/* Divides by ten again and again; the digits come lowest first. */
static void show_decimal(const char *name, const uint32_t *words, unsigned width) {
    uint32_t left[MOST];
    char digits[40];
    unsigned many = 0, i, more;
    memcpy(left, words, width * sizeof *left);
    do {
        uint64_t rest = 0;
        more = 0;
        for (i = width; i > 0; i--) {
            uint64_t part = rest << 32 | left[i - 1];
            left[i - 1] = (uint32_t)(part / 10);
            rest = part % 10;
            more |= left[i - 1] != 0;
        }
        digits[many++] = (char)('0' + rest);
    } while (more);
    printf("%s", name);
    while (many > 0) putchar(digits[--many]);
    putchar('\n');
}

/* The later less the earlier, by the recipe sub: number 0 is subtracted from number 1. */
static int tell(struct counter earlier, struct counter later) {
    char text[] = "width\t1\nsub\t0\t1\n";
    uint32_t d[8] = {0}, a[8] = {0};
    uint8_t flags = 0;
    uint64_t told[GRO_TOLD] = {0};
    unsigned width = earlier.width;
    text[6] = (char)('0' + width);
    memcpy(d, earlier.words, width * sizeof *d);
    memcpy(d + width, later.words, width * sizeof *d);
    recipe_run((const uint8_t *)text, sizeof text - 1, d, a, &flags, told);
    if (told[0] != 0) {
        fprintf(stderr, "difference: refused with %u on line %u\n", (unsigned)told[0], (unsigned)told[1]);
        return 2;
    }
    show("earlier     ", earlier.words, width);
    show("later       ", later.words, width);
    show("difference  ", d + width, width);
    show_decimal("decimal     ", d + width, width);
    /* the flags' values are in flags; told[2] is only which of them are promised */
    if (flags & GRO_X)
        puts("the later counter is below the earlier: it was set back, or it went round, and this is the way round");
    return 0;
}

int main(int count, char **words) {
    char rooms[2][LINE];
    struct counter earlier, later;
    if (count != 1 && count != 3) stop("two counters are wanted, the earlier and the later", "arguments");
    earlier = read_counter(count == 3 ? words[1] : line(rooms[0]));
    later = read_counter(count == 3 ? words[2] : line(rooms[1]));
    if (earlier.width != later.width) stop("the counters have not the same number of long words", "give both the same");
    return tell(earlier, later);
}
