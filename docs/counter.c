/* Two long words, lowest first: ADD, then ADDX with the X that ADD left. README.md shows how to build it. */
#include <stdint.h>
#include <stdio.h>

extern uint64_t alu_call(uint8_t op, uint8_t size, uint32_t src, uint32_t dst, uint8_t ccr);

enum { ADD = 0, ADDX = 3, LONG = 2 };

/* Prints one operation and returns its answer: result, flags from bit 32, figure from bit 40, refusal in bits 48 and 49. */
static uint64_t done(const char *name, uint8_t op, uint32_t src, uint32_t dst, uint8_t ccr) {
    uint64_t answer = alu_call(op, LONG, src, dst, ccr);
    printf("%s\t%08X + %08X = %08X\tX %d C %d, %d clocks\n", name, (unsigned)dst, (unsigned)src, (unsigned)answer,
           (int)(answer >> 36 & 1), (int)(answer >> 32 & 1), (int)(answer >> 40 & 255));
    return answer;
}

int main(void) {
    uint64_t low = done("ADD", ADD, 0x00000001, 0xFFFFFFFF, 0);
    uint64_t high = done("ADDX", ADDX, 0x00000000, 0x00000001, low >> 32 & 31);
    printf("1FFFFFFFF + 1 = %08X%08X\n", (unsigned)high, (unsigned)low);
    return 0;
}
