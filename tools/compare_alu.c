/* Runs the operations of m386_alu on this machine's own processor, which must be of the x86 family, and prints a checksum
   of the results and the flags for every operation, width and block of cases. compare_alu.sh compares these lines with those
   of m386_alu. Flags that the manual leaves undefined are left out. */
#include "processor.h"
#include <setjmp.h>
#include <signal.h>
#include <stdint.h>
#include <stdio.h>

enum { CASES = 10000, BLOCKS = 10 };

static uint64_t state, sum;

static uint64_t draw(void) {
    state ^= state << 13;
    state ^= state >> 7;
    state ^= state << 17;
    return state;
}

static uint32_t pick(int width) {
    uint32_t max = width == 32 ? 0xffffffffu : (1u << width) - 1;
    uint64_t r = draw();
    switch (r & 15) {
    case 0: return 0;
    case 1: return max;
    case 2: return max / 2;
    case 3: return max / 2 + 1;
    case 4: return 1;
    case 5: return (r >> 8) & 15;
    case 6: return max - ((r >> 8) & 15);
    default: return (r >> 16) & max;
    }
}

static void hash(uint32_t value) { sum = (sum ^ value) * 1099511628211u; }

static sigjmp_buf divide_error;

static void on_divide_error(int number) {
    (void)number;
    siglongjmp(divide_error, 1);
}

static void one_case(int kind, int op, int width) {
    uint32_t a = pick(width), b = pick(width), c = pick(width);
    uint64_t r = draw();
    uint8_t count = r & 3 ? r >> 8 & 0xff : 1;
    uint64_t f = (draw() & 0x8d5) | 0x202;
    uint32_t n = count % 32, high = 0, low = 0, single = n == 1 ? 0x800 : 0;
    switch (kind) {
    case 0: {
        uint32_t value = ALU[op](width, a, b, &f);
        uint32_t logic = op == 1 || op == 4 || op == 6;
        if (op != 7) hash(value);
        hash(f & (logic ? 0x8c5 : 0x8d5));
        return;
    }
    case 1:
        hash(SHIFTS[op](width, a, count, &f));
        hash(f & (n == 0 ? 0x8d5 : (op < 4 ? 0xd5 : 0xc5) | single));
        return;
    case 2:
        if (n > (uint32_t)width) return;
        hash(DOUBLES[op](width, a, b, count, &f));
        hash(f & (n == 0 ? 0x8d5 : 0xc5 | single));
        return;
    case 3:
        hash(BITS[op](width, a, b & (width - 1), &f));
        hash(f & 1);
        return;
    case 4:
        MULTIPLIES[op](width, a, b, &high, &low, &f);
        hash(high);
        hash(low);
        hash(f & 0x801);
        return;
    default:
        if (r & 16) a = op == 1 && b >> (width - 1) ? (width == 32 ? 0xffffffffu : (1u << width) - 1) : 0;
        if (r & 32) a = a ^ (c >> 1);
        if (sigsetjmp(divide_error, 1)) {
            hash(0xdead);
            return;
        }
        DIVIDES[op](width, a, b, c, &high, &low);
        hash(high);
        hash(low);
    }
}

int main(void) {
    static const int OPS[] = {8, 7, 2, 4, 2, 2};
    signal(SIGFPE, on_divide_error);
    for (int kind = 0; kind < 6; kind++)
        for (int op = 0; op < OPS[kind]; op++)
            for (int width = kind == 2 || kind == 3 ? 16 : 8; width <= 32; width *= 2)
                for (int block = 0; block < BLOCKS; block++) {
                    state = 0x9e3779b97f4a7c15u * (uint64_t)(1 + block + 16 * (width + 64 * (op + 16 * kind)));
                    sum = 14695981039346656037u;
                    for (int i = 0; i < CASES; i++) one_case(kind, op, width);
                    printf("%d %d %d %d %llu\n", kind, op, width, block, (unsigned long long)sum);
                }
    return 0;
}
