/*
 * Gromavelush for C: operations, recipes, listings and runs of the 68000, proved. bindings/build makes the archive
 * target/native/libgromavelush.a, which has these functions and needs nothing but the C library's memcpy and memset.
 *
 * Every function takes every number, ends, calls nothing of the caller's, and keeps nothing between calls, no pointer either. What
 * the language cannot check, and a caller must keep:
 *   - a pointer is to as many elements as its parameter says, aligned for its type, and all of them are set, those too that are only
 *     written;
 *   - a row that a function writes (it is not const) overlaps no other row of the same call, and nothing else reads or writes it
 *     meanwhile; rows that are only read may overlap each other and be shared, and nothing writes them meanwhile; so a row lies in no
 *     mapped file that another writes or shortens;
 *   - a row of length 0 still has a pointer that is not null, and aligned;
 *   - a row has at most 2^63 - 1 bytes;
 *   - there are 16 KiB of stack left: bindings/c/stack.c measures at most 7,608 bytes on x86-64 (6,576 on Arm at landing 11),
 *     and the loader may want some at the first call of memcpy.
 * They are safe to call from several threads, and from a signal handler, on rows of their own. Numbers are the machine's own, 64-bit
 * Linux on x86-64 or Arm; a word's bytes are counted by value, not by address.
 */
#ifndef GROMAVELUSH_H
#define GROMAVELUSH_H

#include <stddef.h>
#include <stdint.h>

#ifdef __cplusplus
extern "C" {
#endif

/* Limits. */
#define GRO_LINES 32   /* the most lines that a recipe has */
#define GRO_SLOTS 256  /* the slots of a listing: its first so many steps are run and printed */
#define GRO_STEPS 256  /* the most steps that a recipe has */
#define GRO_TEXT 1024  /* the bytes that the programs read of a text; the library takes any length */
#define GRO_ROOM 24576 /* the bytes that any printed listing has room in */
#define GRO_TOLD 8     /* the numbers that a call tells: those without a meaning are 0 */
#define GRO_BOXES 64   /* the most boxes of a rack */

/* Flags in one byte: X 16, N 8, Z 4, V 2, C 1. Higher bits don't count, and are 0 in answers. */
enum gro_flag { GRO_X = 16, GRO_N = 8, GRO_Z = 4, GRO_V = 2, GRO_C = 1 };

enum gro_size { GRO_BYTE = 0, GRO_WORD = 1, GRO_LONG = 2 };

/* GRO_ADDQA and GRO_SUBQA are ADDQ and SUBQ on an address register. */
enum gro_operation {
    GRO_ADD = 0x00, GRO_SUB, GRO_CMP, GRO_ADDX, GRO_SUBX, GRO_ADDA, GRO_SUBA, GRO_CMPA,
    GRO_ADDQ = 0x08, GRO_SUBQ, GRO_ADDQA, GRO_SUBQA, GRO_CLR, GRO_NEG, GRO_NEGX, GRO_NOT,
    GRO_EXT = 0x10, GRO_ASL, GRO_ASR, GRO_LSL, GRO_LSR, GRO_ROL, GRO_ROR, GRO_ROXL,
    GRO_ROXR = 0x18, GRO_BTST, GRO_BSET, GRO_BCLR, GRO_BCHG, GRO_CHK
};

/*
 * Refusal numbers. Of operations and steps: 1 a step's small number is out of its range (1 to 8, for a bit 0 to 31), or ROXL or ROXR is
 * called with a count above 63; 2 the operation hasn't that size, or there is no such operation, size or step; 3 a step's register
 * number is above 7. A step is tested for 3, 2, 1. Of recipes: 4 the width line; 6 no such number at this width; 7 copy of a number
 * onto itself; 8 more than GRO_LINES lines; 9 too few slots; 11 unknown verb; 12 too few or too many fields; 13 a field that isn't one
 * digit; 14 no byte 10. A line is tested for 8, 14, 11, 12, 13, 6, 7. Of runs: 10 the start place is past the end. Of racks: 15 more than
 * GRO_BOXES boxes, or a row that is too short for them. Any number but 0 is a refusal: a later library may give others.
 */

/*
 * One operation on values. src is the source, small number, count, bit number or CHK's bound; dst all 32 bits of the destination.
 * Bits of the answer: 0 to 31 the result, 32 to 36 the flags, 40 to 47 the clock figure, 48 and 49 the refusal number (0: accepted),
 * 52 and 53 CHK's class (0 Pass, 1 Over, 2 Short, 3 Below); all others are 0. A number that names no operation or no size is refused
 * with 2. Refused, result, figure and class are 0 and the flags as they came. The figure is document 01's. As a step six
 * operations have another: long ADD, SUB, ADDX and SUBX 8 and long CMP 6, in place of 4; BCLR below bit 16 8, in place of 10.
 */
uint64_t alu_call(uint8_t operation, uint8_t size, uint32_t src, uint32_t dst, uint8_t flags);

/*
 * A step is a word of 64 bits: byte 0 (the lowest) the operation, 1 the size, 2 the source's kind, 3 the source's number, 4 the
 * destination's register number, 5 the text line that the step comes from, 0 if it comes from none. Byte 3 doesn't count with kind 0.
 * Bytes 6 and 7 are reserved: write 0 there. Today they don't count where a step is run or printed; a later library will read them.
 * The destination of ADDA, SUBA, CMPA, GRO_ADDQA and GRO_SUBQA is an address register, any other a data register. The line changes
 * nothing that a step does: it is printed, and told where the step traps or is refused. A word that names no step of document 01's forms
 * is refused with 2 where it is run, and its byte 5 is told all the same. GRO_STEP makes a word with line 0, GRO_STEP_AT one with a
 * line. Both take the low 8 bits of each number, and have 0 in the reserved bytes: test a number that may be above 255 before.
 */
enum gro_source { GRO_NONE = 0, GRO_SMALL = 1, GRO_DATA = 2, GRO_ADDRESS = 3 };
#define GRO_STEP(operation, size, kind, source, destination)                                                              \
    ((uint64_t)(uint8_t)(operation) | (uint64_t)(uint8_t)(size) << 8 | (uint64_t)(uint8_t)(kind) << 16 |                  \
     (uint64_t)(uint8_t)(source) << 24 | (uint64_t)(uint8_t)(destination) << 32)
#define GRO_STEP_AT(operation, size, kind, source, destination, line)                                                     \
    (GRO_STEP(operation, size, kind, source, destination) | (uint64_t)(uint8_t)(line) << 40)

/*
 * Runs a listing from place start, at most budget steps. d, a and flags are the state, before and after. A listing longer than
 * GRO_SLOTS is cut: it ends Finished at GRO_SLOTS. Test its length before.
 * told: 0 the end, 1 the trap's class (1 Over, 2 Short, 3 Below) or the refusal's number, 2 the place of either (both 0 where it
 * finished or spent its budget), 3 the next place, 4 the steps done, 5 the sum of their clock figures, 6 the line of the step that
 * trapped or was refused (0 where it finished or spent its budget, and with 10).
 */
enum gro_end { GRO_FINISHED = 0, GRO_BUDGET = 1, GRO_TRAPPED = 2, GRO_REFUSED = 3 };
void listing_run(const uint64_t *listing, size_t length, uint32_t d[8], uint32_t a[8], uint8_t *flags, size_t start, uint32_t budget,
                 uint64_t told[GRO_TOLD]);

/*
 * Runs a listing on a rack of boxes, one after the other: of each, listing_run from its own start place with the whole budget. There
 * are as many boxes as flags. Box i has the words 8 i to 8 i + 7 of d, of a and of answers; the last get what listing_run tells. What
 * lies behind the boxes' words in a row is neither read nor written. A box's own trap or refusal is in its answer, and has no effect on
 * the other boxes. told: 0 the refusal number, 1 the boxes that were run. Refused with 15, before any box is run: more than GRO_BOXES
 * flags; fewer starts than flags; d, a or answers with fewer than 8 words for each of the flags. Then no row but told is written.
 */
void rack_run(const uint64_t *listing, size_t length, uint32_t *d, size_t d_length, uint32_t *a, size_t a_length, uint8_t *flags,
              size_t boxes, const size_t *starts, size_t starts_length, uint32_t budget, uint64_t *answers, size_t answers_length,
              uint64_t told[GRO_TOLD]);

/*
 * Prints a listing as the program recipe does, with this width in the first line; the last field of a step is its line. A listing longer
 * than GRO_SLOTS is cut: it ends at GRO_SLOTS. Test its length before. Answers how many bytes it wrote, with no 0 behind them; what has
 * no room is left off. GRO_ROOM bytes are enough for any listing. At the end stands the sum of the figures that the steps have where all
 * registers and flags are 0: those of a recipe's steps are the same everywhere; a shift, BSET, BCLR or BCHG by a register, or a CHK, may
 * have another in a run, and a step that is refused has 0. A word that names no step prints as CHK B D0 D0 and its byte 5.
 */
size_t listing_print(uint8_t width, const uint64_t *listing, size_t length, uint8_t *out, size_t room);

/*
 * A recipe is a text: a line of `width` and 1, 2 or 4, then at most GRO_LINES lines of a verb and its numbers, one digit each: clear a,
 * copy a b, add a b, sub a b, neg a, not a, halve a, down a, up a. One tab parts the fields, and byte 10 ends each line.
 *
 * Reads a text and translates it into a listing of length slots. told: 0 the refusal number (0: none), 1 its text line, counted from 1
 * (0: none, and of 9), 2 the number of steps, 3 the refusal's column: bytes from 1 at the line's start. It is 0 but for 11 to 14: of 11
 * and 13 the field's first byte, of 12 the first field too many or the early byte 10, of 14 the place past the text. Each step has the
 * text line that it comes from, 2 to GRO_LINES + 1. The slots past the steps stay; a refusal leaves all. A sound recipe of more steps
 * than there are slots is refused with 9; GRO_STEPS slots are enough for any.
 */
void recipe_translate(const uint8_t *text, size_t text_length, uint64_t *listing, size_t length, uint64_t told[GRO_TOLD]);

/*
 * What the program recipe prints for a text that it reads whole, of at most GRO_TEXT bytes: the listing, or `refused`, number, line and
 * column. A longer text is read whole here; the program reads its first GRO_TEXT bytes. Answers as listing_print does.
 */
size_t recipe_answer(const uint8_t *text, size_t length, uint8_t *out, size_t room);

/*
 * Reads a recipe text and runs it on a state. told:
 *   0 the refusal number (0: none)
 *   1 its text line
 *   2 a mask: which flags are promised (GRO_X alone, or all five). Their values are in *flags
 *   3 the steps
 *   4 the sum of their clock figures
 *   5 the refusal's column
 * After add, sub and neg, and with no line, all five flags are promised, else X alone; a flag that is not promised is left 0. A refused
 * text leaves d, a and the five flags, and tells all five promised, 0 steps and 0 clocks.
 */
void recipe_run(const uint8_t *text, size_t length, uint32_t d[8], uint32_t a[8], uint8_t *flags, uint64_t told[GRO_TOLD]);

#ifdef __cplusplus
}
#endif

#endif
