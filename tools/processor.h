/* The operations of m386_alu on this machine's own processor, which must be of the x86 family: each takes its operands, the
   count where it has one, and the flags, which it changes. compare_alu.c and truth_arithmetic.c use them. */
#ifndef PROCESSOR_H
#define PROCESSOR_H
#include <stdint.h>

#define WITH_FLAGS(insn) "pushq %q[f]\n\tpopfq\n\t" insn "\n\tpushfq\n\tpopq %q[f]"

#define BINARY(name, insn)                                                                                             \
    static uint32_t name(int width, uint32_t a, uint32_t b, uint64_t *f) {                                             \
        uint8_t a8 = a, b8 = b;                                                                                        \
        uint16_t a16 = a, b16 = b;                                                                                     \
        switch (width) {                                                                                               \
        case 8: __asm__ volatile(WITH_FLAGS(insn " %[b], %[a]") : [a] "+q"(a8), [f] "+r"(*f) : [b] "q"(b8) : "cc"); return a8;       \
        case 16: __asm__ volatile(WITH_FLAGS(insn " %[b], %[a]") : [a] "+r"(a16), [f] "+r"(*f) : [b] "r"(b16) : "cc"); return a16;   \
        default: __asm__ volatile(WITH_FLAGS(insn " %[b], %[a]") : [a] "+r"(a), [f] "+r"(*f) : [b] "r"(b) : "cc"); return a;         \
        }                                                                                                              \
    }

#define SHIFT(name, insn)                                                                                              \
    static uint32_t name(int width, uint32_t a, uint8_t count, uint64_t *f) {                                          \
        uint8_t a8 = a;                                                                                                \
        uint16_t a16 = a;                                                                                              \
        switch (width) {                                                                                               \
        case 8: __asm__ volatile(WITH_FLAGS(insn " %%cl, %[a]") : [a] "+q"(a8), [f] "+r"(*f) : "c"(count) : "cc"); return a8;   \
        case 16: __asm__ volatile(WITH_FLAGS(insn " %%cl, %[a]") : [a] "+r"(a16), [f] "+r"(*f) : "c"(count) : "cc"); return a16; \
        default: __asm__ volatile(WITH_FLAGS(insn " %%cl, %[a]") : [a] "+r"(a), [f] "+r"(*f) : "c"(count) : "cc"); return a;    \
        }                                                                                                              \
    }

#define DOUBLE(name, insn)                                                                                             \
    static uint32_t name(int width, uint32_t a, uint32_t b, uint8_t count, uint64_t *f) {                              \
        uint16_t a16 = a, b16 = b;                                                                                     \
        if (width == 16) {                                                                                             \
            __asm__ volatile(WITH_FLAGS(insn " %%cl, %[b], %[a]") : [a] "+r"(a16), [f] "+r"(*f) : [b] "r"(b16), "c"(count) : "cc"); \
            return a16;                                                                                                \
        }                                                                                                              \
        __asm__ volatile(WITH_FLAGS(insn " %%cl, %[b], %[a]") : [a] "+r"(a), [f] "+r"(*f) : [b] "r"(b), "c"(count) : "cc");  \
        return a;                                                                                                      \
    }

#define BIT(name, insn)                                                                                                \
    static uint32_t name(int width, uint32_t a, uint32_t b, uint64_t *f) {                                             \
        uint16_t a16 = a, b16 = b;                                                                                     \
        if (width == 16) {                                                                                             \
            __asm__ volatile(WITH_FLAGS(insn " %[b], %[a]") : [a] "+r"(a16), [f] "+r"(*f) : [b] "r"(b16) : "cc");      \
            return a16;                                                                                                \
        }                                                                                                              \
        __asm__ volatile(WITH_FLAGS(insn " %[b], %[a]") : [a] "+r"(a), [f] "+r"(*f) : [b] "r"(b) : "cc");              \
        return a;                                                                                                      \
    }

#define MULTIPLY(name, insn)                                                                                           \
    static void name(int width, uint32_t a, uint32_t b, uint32_t *high, uint32_t *low, uint64_t *f) {                  \
        uint32_t d = 0;                                                                                                \
        switch (width) {                                                                                               \
        case 8: __asm__ volatile(WITH_FLAGS(insn "b %b[b]") : "+a"(a), [f] "+r"(*f) : [b] "q"(b) : "cc");             \
            *high = a >> 8 & 0xff; *low = a & 0xff; return;                                                            \
        case 16: __asm__ volatile(WITH_FLAGS(insn "w %w[b]") : "+a"(a), "+d"(d), [f] "+r"(*f) : [b] "r"(b) : "cc");   \
            *high = d & 0xffff; *low = a & 0xffff; return;                                                             \
        default: __asm__ volatile(WITH_FLAGS(insn "l %k[b]") : "+a"(a), "+d"(d), [f] "+r"(*f) : [b] "r"(b) : "cc");   \
            *high = d; *low = a;                                                                                       \
        }                                                                                                              \
    }

#define DIVIDE(name, insn)                                                                                             \
    static void name(int width, uint32_t high, uint32_t low, uint32_t by, uint32_t *quotient, uint32_t *rest) {        \
        uint32_t a = width == 8 ? high << 8 | low : low, d = high;                                                     \
        switch (width) {                                                                                               \
        case 8: __asm__ volatile(insn "b %b[b]" : "+a"(a) : [b] "q"(by) : "cc");                                       \
            *quotient = a & 0xff; *rest = a >> 8 & 0xff; return;                                                       \
        case 16: __asm__ volatile(insn "w %w[b]" : "+a"(a), "+d"(d) : [b] "r"(by) : "cc");                             \
            *quotient = a & 0xffff; *rest = d & 0xffff; return;                                                        \
        default: __asm__ volatile(insn "l %k[b]" : "+a"(a), "+d"(d) : [b] "r"(by) : "cc");                             \
            *quotient = a; *rest = d;                                                                                  \
        }                                                                                                              \
    }

BINARY(add, "add") BINARY(or, "or") BINARY(adc, "adc") BINARY(sbb, "sbb")
BINARY(and, "and") BINARY(sub, "sub") BINARY(xor, "xor") BINARY(compare, "cmp")
SHIFT(rol, "rol") SHIFT(ror, "ror") SHIFT(rcl, "rcl") SHIFT(rcr, "rcr") SHIFT(shl, "shl") SHIFT(shr, "shr") SHIFT(sar, "sar")
DOUBLE(shrd, "shrd") DOUBLE(shld, "shld")
BIT(bt, "bt") BIT(bts, "bts") BIT(btr, "btr") BIT(btc, "btc")
MULTIPLY(mul, "mul") MULTIPLY(imul, "imul")
DIVIDE(divide, "div") DIVIDE(idivide, "idiv")

static uint32_t (*const ALU[])(int, uint32_t, uint32_t, uint64_t *) = {add, or, adc, sbb, and, sub, xor, compare};
static uint32_t (*const SHIFTS[])(int, uint32_t, uint8_t, uint64_t *) = {rol, ror, rcl, rcr, shl, shr, sar};
static uint32_t (*const DOUBLES[])(int, uint32_t, uint32_t, uint8_t, uint64_t *) = {shrd, shld};
static uint32_t (*const BITS[])(int, uint32_t, uint32_t, uint64_t *) = {bt, bts, btr, btc};
static void (*const MULTIPLIES[])(int, uint32_t, uint32_t, uint32_t *, uint32_t *, uint64_t *) = {mul, imul};
static void (*const DIVIDES[])(int, uint32_t, uint32_t, uint32_t, uint32_t *, uint32_t *) = {divide, idivide};

#endif
