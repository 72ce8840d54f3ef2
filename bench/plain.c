/* A plain C program that makes the same runs as m386 and writes the same report, for the instructions that bench/beside.py runs:
 * MOV r32, imm32; MOV EAX, [address]; MOV [address], EAX; XCHG [address], r32; JMP. The order is round. It keeps every cycle
 * before it writes the first line, and decodes anew in each step, as m386 does. It tests next to nothing, so it is a ceiling.
 *
 * plain run --order=round --steps=N < image      With BY_LINE in the environment each line is a write of its own.
 */
#include <stdint.h>
#include <stdio.h>
#include <stdlib.h>
#include <string.h>
#include <unistd.h>

enum { HEADER = 64, MOST_INPUT = 20971520, MOST_LINE = 64 };
enum role { FETCH, DATA };
enum phase { FETCHING, READING, WRITING };

struct cycle {
    uint32_t addr, value;
    uint8_t cpu, role, write, joined, part, enables, room[10];
};

struct processor {
    uint32_t regs[8], eip, steps;
    uint8_t code[20];               /* the bytes of the instruction that were fetched */
    uint32_t fetched;
    enum phase phase;
    uint32_t addr, next, old, new;  /* the operand, where the next instruction stands, and the values read and to be written */
    uint32_t groups, made;          /* the aligned groups of the operand, and how many cycles of them were made */
    int locked;
};

static uint8_t *memory;
static uint32_t size, budget;
static struct cycle *cycles;
static size_t count, room;

static uint32_t number(const uint8_t *bytes)
{
    return bytes[0] | bytes[1] << 8 | bytes[2] << 16 | (uint32_t)bytes[3] << 24;
}

static uint32_t mask(uint32_t enables)
{
    uint32_t bits = 0;
    for (int i = 0; i < 4; i++)
        if (enables >> i & 1) bits |= 0xffu << 8 * i;
    return bits;
}

static uint32_t read_group(uint32_t addr, uint32_t enables)
{
    return (addr < size ? number(memory + addr) : 0xffffffff) & mask(enables);
}

static void write_group(uint32_t addr, uint32_t enables, uint32_t value)
{
    if (addr >= size) return;
    for (int i = 0; i < 4; i++)
        if (enables >> i & 1) memory[addr + i] = value >> 8 * i;
}

static void keep(struct cycle cycle)
{
    if (count == room) {
        room = room ? 2 * room : 1024;
        cycles = realloc(cycles, room * sizeof *cycles);
        if (!cycles) exit(1);
    }
    cycles[count++] = cycle;
}

/* The length of an instruction by its first byte. */
static uint32_t length_of(uint8_t opcode)
{
    switch (opcode) {
    case 0xeb: return 2;
    case 0x87: return 6;
    case 0xa1: case 0xa3: case 0xe9: return 5;
    default: if (opcode >> 3 == 0xb8 >> 3) return 5;
    }
    fprintf(stderr, "plain: no opcode %02x\n", opcode);
    exit(1);
}

static void end_step(struct processor *p, uint32_t eip)
{
    p->eip = eip;
    p->steps++;
    p->fetched = 0;
    p->phase = FETCHING;
}

/* Carries out the instruction that was fetched, as far as it asks for no cycle. */
static void begin(struct processor *p, uint32_t length)
{
    uint8_t opcode = p->code[0];
    uint32_t next = p->eip + length;
    if (opcode >> 3 == 0xb8 >> 3) {
        p->regs[opcode & 7] = number(p->code + 1);
        end_step(p, next);
    } else if (opcode == 0xe9) {
        end_step(p, next + number(p->code + 1));
    } else if (opcode == 0xeb) {
        end_step(p, next + (int8_t)p->code[1]);
    } else {
        p->locked = opcode == 0x87;
        p->addr = number(p->code + (p->locked ? 2 : 1));
        p->new = p->regs[p->locked ? p->code[1] >> 3 & 7 : 0];
        p->groups = p->addr % 4 ? 2 : 1;
        p->old = p->made = 0;
        p->next = next;
        p->phase = opcode == 0xa3 ? WRITING : READING;
    }
}

static void fetch(struct processor *p, uint8_t cpu)
{
    uint32_t at = p->eip + p->fetched, addr = at - at % 4, value = read_group(addr, 15);
    keep((struct cycle){ .addr = addr, .value = value, .cpu = cpu, .role = FETCH, .enables = 15 });
    for (uint32_t i = at % 4; i < 4; i++) p->code[p->fetched++] = value >> 8 * i;
    uint32_t length = length_of(p->code[0]);
    if (length <= p->fetched) begin(p, length);
}

/* Makes the next cycle of the operand, and answers whether the one behind it is joined to it. */
static int access_operand(struct processor *p, uint8_t cpu)
{
    uint32_t by = p->addr % 4, part = p->made ? 4 - by : 0, enables = p->made ? (1u << by) - 1 : 15u << by & 15;
    uint32_t addr = p->addr - by + 4 * p->made;
    struct cycle cycle = { .addr = addr, .cpu = cpu, .role = DATA, .part = part, .enables = enables };
    if (p->phase == READING) {
        cycle.value = read_group(addr, enables);
        cycle.joined = p->locked && p->made;
        p->old |= p->made ? cycle.value << 8 * part : cycle.value >> 8 * by;
    } else {
        cycle.write = 1;
        cycle.value = p->made ? p->new >> 8 * part : p->new << 8 * by;
        cycle.joined = p->locked;
        write_group(addr, enables, cycle.value);
    }
    keep(cycle);
    if (++p->made < p->groups) return p->locked;
    p->made = 0;
    if (p->phase == READING && p->locked) {
        p->phase = WRITING;
        return 1;
    }
    if (p->locked) p->regs[p->code[1] >> 3 & 7] = p->old;
    else if (p->phase == READING) p->regs[0] = p->old;
    end_step(p, p->next);
    return 0;
}

static void run(struct processor *processors, uint32_t cpus)
{
    int amid = -1;
    for (int left = 1; left;) {
        left = 0;
        for (uint32_t cpu = 0; cpu < cpus; cpu++) {
            struct processor *p = processors + cpu;
            if (p->steps >= budget) continue;
            left = 1;
            if (amid >= 0 && amid != (int)cpu) continue;
            int joined = 0;
            if (p->phase == FETCHING) fetch(p, cpu);
            else joined = access_operand(p, cpu);
            amid = joined ? (int)cpu : -1;
        }
    }
}

static char out[1 << 16];
static size_t used;

static void flush(void)
{
    for (size_t at = 0; at < used;) {
        ssize_t written = write(1, out + at, used - at);
        if (written <= 0) exit(1);
        at += written;
    }
    used = 0;
}

static char *hex(char *at, uint32_t value, int digits)
{
    while (digits--) *at++ = "0123456789abcdef"[value >> 4 * digits & 15];
    return at;
}

static char *line_of(char *at, const struct cycle *c)
{
    memcpy(at, "c 0 m r . ", 10);
    at[2] += c->cpu;
    if (c->write) at[6] = 'w';
    if (c->joined) at[8] = '+';
    at += 10;
    if (c->role == FETCH) memcpy(at, "fetch ", 6), at += 6;
    else memcpy(at, "data ", 5), at += 5;
    *at++ = '0';
    *at++ = '0' + c->part;
    *at++ = ' ';
    at = hex(at, c->addr, 8);
    *at++ = ' ';
    at = hex(at, c->enables, 1);
    *at++ = ' ';
    at = hex(at, c->value, 8);
    *at++ = '\n';
    return at;
}

static void report(const struct processor *processors, uint32_t cpus)
{
    static const char *names[] = { "eax", "ecx", "edx", "ebx", "esp", "ebp", "esi", "edi" };
    int by_line = getenv("BY_LINE") != 0;
    used = sprintf(out, "m386 report 1\nmemory %08x cpus %u\n", size, cpus);
    for (size_t i = 0; i < count; i++) {
        if (by_line || used + MOST_LINE > sizeof out) flush();
        used = line_of(out + used, cycles + i) - out;
    }
    flush();
    for (uint32_t cpu = 0; cpu < cpus; cpu++) {
        const struct processor *p = processors + cpu;
        used = sprintf(out, "p %u running steps %u eip %08x efl 00000002", cpu, p->steps, p->eip);
        for (int i = 0; i < 8; i++) used += sprintf(out + used, " %s %08x", names[i], p->regs[i]);
        used += sprintf(out + used, " es 0010 cs 0008 ss 0010 ds 0010 fs 0010 gs 0010 ldt 0000 tr 0000 cr0 00000001 pending none\n");
        flush();
    }
    memcpy(out, "clean\n", 6);
    used = 6;
    flush();
}

int main(int argc, char **argv)
{
    static uint8_t image[MOST_INPUT];
    static struct processor processors[8];
    size_t length = 0;
    for (ssize_t got; (got = read(0, image + length, sizeof image - length)) > 0;) length += got;
    for (int i = 1; i < argc; i++)
        if (!strncmp(argv[i], "--steps=", 8)) budget = atoi(argv[i] + 8);
    uint32_t cpus = image[6], sections = number(image + 28);
    size = number(image + 8);
    memory = calloc(1, size);
    if (!memory) return 1;
    for (const uint8_t *at = image + HEADER; sections--; at += 8 + number(at + 4))
        memcpy(memory + number(at), at + 8, number(at + 4));
    for (uint32_t cpu = 0; cpu < cpus; cpu++) processors[cpu].eip = number(image + 32 + 4 * cpu);
    run(processors, cpus);
    report(processors, cpus);
    return 0;
}
