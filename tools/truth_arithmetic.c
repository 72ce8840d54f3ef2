/* Writes cases of arithmetic for crates/m386_truth from this machine's own processor, which must be of the x86 family.
   truth_cases.py compiles and runs it. For each operation there is a line "= NAME", and behind it a line for each case:

       WIDTH A B C FLAGS : FIRST SECOND FLAGS

   in decimal. A and B are operands, C is the count or the bit, or the third operand of a division, whose dividend is A
   (upper) and B (lower). FIRST and SECOND are the results: SECOND is the lower half of a product, and the remainder of a
   division, and else 0. A divide error is "none".

   Every flag that the manual defines is the processor's. What it leaves undefined is masked out of the processor's answer,
   and has the value that docs/DECISIONS.md, "Flags that the manual leaves undefined", chooses: LOGIC_AF, SHIFT_AF, SHIFT_OF,
   PRODUCT_FLAGS, BIT_FLAGS and DIVISION_FLAGS below. So do the double shifts of 16 bits by more than 16 (LONG_DOUBLE), and
   the answer of CMP, which is that of SUB ("What CMP answers"). */
#include "processor.h"
#include <setjmp.h>
#include <signal.h>
#include <stdio.h>
#include <string.h>

enum { CF = 1, PF = 4, AF = 0x10, ZF = 0x40, SF = 0x80, OF = 0x800, STATUS = CF | PF | AF | ZF | SF | OF, RANDOM = 100 };

/* Bits of EFLAGS that no arithmetic changes: bit 1, TF, IF, DF, IOPL and NT. They aren't given to the processor. */
static const uint32_t OTHERS[] = {2, 0x7702, 0x2402};
static const uint32_t BEFORE[] = {0, STATUS, CF};

static uint64_t state = 386;

static uint64_t draw(void) {
    state ^= state << 13;
    state ^= state >> 7;
    state ^= state << 17;
    return state;
}

static uint32_t most(int width) { return width == 32 ? 0xffffffffu : (1u << width) - 1; }

/* The border numbers of a width, and a number that is none. */
static uint32_t border(int width, int i) {
    const uint32_t all[] = {0, 1, most(width) / 2, most(width) / 2 + 1, most(width) - 1, most(width), 0x12345679u & most(width)};
    return all[i];
}
enum { BORDERS = 7 };

static uint32_t any(int width) {
    uint64_t r = draw();
    return r & 3 ? (r >> 16) & most(width) : border(width, (r >> 8) % BORDERS);
}

/* The processor's flags where they are defined, else those before, or 0. */
static uint32_t chosen(uint32_t before, uint32_t after, uint32_t kept, uint32_t cleared) {
    return ((after & ~kept & ~cleared) | (before & kept)) & STATUS;
}

static void line(int width, uint32_t a, uint32_t b, uint32_t c, uint32_t before, uint32_t other, uint32_t first, uint32_t second, uint32_t after) {
    printf("%d %u %u %u %u : %u %u %u\n", width, a, b, c, before | other, first, second, after | other);
}

static void binary(int op, int width, uint32_t a, uint32_t b, uint32_t before, uint32_t other) {
    uint64_t f = before | 0x202;
    uint32_t value = ALU[op == 7 ? 5 : op](width, a, b, &f);
    int logic = op == 1 || op == 4 || op == 6;
    line(width, a, b, 0, before, other, value, 0, chosen(before, f, 0, logic ? AF : 0)); /* LOGIC_AF */
}

/* By another count than 1 OF is undefined, and AF is by each but 0 in shifts, and in rotates it stays by the manual too. */
static void single(int op, int width, uint32_t a, uint32_t count, uint32_t before, uint32_t other) {
    uint64_t f = before | 0x202;
    uint32_t n = count % 32, value = SHIFTS[op](width, a, count, &f);
    uint32_t kept = n == 0 ? 0 : (op < 4 ? 0 : AF) | (n == 1 ? 0 : OF); /* SHIFT_AF, SHIFT_OF */
    line(width, a, 0, count, before, other, value, 0, chosen(before, f, kept, 0));
}

static void twofold(int op, int width, uint32_t a, uint32_t b, uint32_t count, uint32_t before, uint32_t other) {
    uint64_t f = before | 0x202;
    uint32_t n = count % 32;
    if (n > (uint32_t)width) { /* LONG_DOUBLE */
        line(width, a, b, count, before, other, a, 0, before);
        return;
    }
    uint32_t value = DOUBLES[op](width, a, b, count, &f);
    uint32_t kept = n == 0 ? 0 : AF | (n == 1 ? 0 : OF); /* SHIFT_AF, SHIFT_OF */
    line(width, a, b, count, before, other, value, 0, chosen(before, f, kept, 0));
}

static void bit(int op, int width, uint32_t a, uint32_t place, uint32_t before, uint32_t other) {
    uint64_t f = before | 0x202;
    uint32_t value = BITS[op](width, a, place, &f);
    line(width, a, 0, place, before, other, value, 0, chosen(before, f, STATUS & ~CF, 0)); /* BIT_FLAGS */
}

static void product(int op, int width, uint32_t a, uint32_t b, uint32_t before, uint32_t other) {
    uint64_t f = before | 0x202;
    uint32_t high, low;
    MULTIPLIES[op](width, a, b, &high, &low, &f);
    line(width, a, b, 0, before, other, high, low, chosen(before, f, SF | ZF | AF | PF, 0)); /* PRODUCT_FLAGS */
}

static sigjmp_buf divide_error;

static void on_divide_error(int number) {
    (void)number;
    siglongjmp(divide_error, 1);
}

static void quotient(int op, int width, uint32_t high, uint32_t low, uint32_t by, uint32_t before, uint32_t other) {
    uint32_t first, second;
    if (sigsetjmp(divide_error, 1)) {
        printf("%d %u %u %u %u : none\n", width, high, low, by, before | other);
        return;
    }
    DIVIDES[op](width, high, low, by, &first, &second);
    line(width, high, low, by, before, other, first, second, before); /* DIVISION_FLAGS */
}

static const char *const NAMES[6][8] = {
    {"add", "or", "adc", "sbb", "and", "sub", "xor", "cmp"}, {"rol", "ror", "rcl", "rcr", "shl", "shr", "sar"}, {"shrd", "shld"},
    {"bt", "bts", "btr", "btc"}, {"mul", "imul"}, {"div", "idiv"}};

static void one(int kind, int op, int width, uint32_t a, uint32_t b, uint32_t c, uint32_t before, uint32_t other) {
    switch (kind) {
    case 0: binary(op, width, a, b, before, other); return;
    case 1: single(op, width, a, c, before, other); return;
    case 2: twofold(op, width, a, b, c, before, other); return;
    case 3: bit(op, width, a, c % width, before, other); return;
    case 4: product(op, width, a, b, before, other); return;
    default: quotient(op, width, a, b, c, before, other); return;
    }
}

/* The borders: of two operands each pair; of counts those round 0, 1, the widths and 32; of bits each. */
static void borders(int kind, int op, int width) {
    static const uint32_t COUNTS[] = {0, 1, 2, 7, 8, 9, 10, 15, 16, 17, 18, 27, 30, 31, 32, 33, 255};
    int counted = kind == 1 || kind == 2;
    int thirds = counted ? (int)(sizeof COUNTS / sizeof *COUNTS) : kind == 3 ? width : kind == 5 ? BORDERS : 1;
    for (int i = 0; i < BORDERS; i++)
        for (int j = 0; j < (kind == 1 || kind == 3 ? 1 : kind == 2 ? 2 : BORDERS); j++)
            for (int k = 0; k < thirds; k++)
                for (int f = 0; f < (kind == 0 || kind == 1 ? 3 : 1); f++) {
                    uint32_t third = counted ? COUNTS[k] : kind == 3 ? (uint32_t)k : border(width, k);
                    uint32_t second = kind == 2 ? border(width, j ? 6 : 4) : border(width, j);
                    int flags = kind == 0 || kind == 1 ? f : (i + j + k) % 3;
                    one(kind, op, width, border(width, i), second, third, BEFORE[flags], OTHERS[(i + f) % 3]);
                }
}

static void randoms(int kind, int op, int width) {
    for (int i = 0; i < RANDOM; i++) {
        uint32_t a = any(width), b = any(width), c = any(width);
        uint64_t r = draw();
        if (kind < 4) c = r & 3 ? r >> 8 & 0xff : 1;
        /* Half of the dividends have a quotient: their upper half is the sign of the lower, or small. */
        if (kind == 5 && r & 1) a = op == 1 && b >> (width - 1) ? most(width) : 0;
        if (kind == 5 && (r & 6) == 6) a = op == 1 ? c >> 2 : c / 2;
        one(kind, op, width, a, b, c, draw() & STATUS, (draw() & 0x7700) | 2);
    }
}

int main(void) {
    static const int OPS[] = {8, 7, 2, 4, 2, 2};
    signal(SIGFPE, on_divide_error);
    for (int kind = 0; kind < 6; kind++)
        for (int op = 0; op < OPS[kind]; op++) {
            printf("= %s\n", NAMES[kind][op]);
            for (int width = kind == 2 || kind == 3 ? 16 : 8; width <= 32; width *= 2) {
                borders(kind, op, width);
                randoms(kind, op, width);
            }
        }
    return 0;
}
