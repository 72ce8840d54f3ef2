/* Two tasks that hand the processor to each other by a far jump. gcc -m32 -march=i386 -ffreestanding */
typedef unsigned int u32;
typedef unsigned short u16;
typedef unsigned char u8;

enum { CODE = 0x08, DATA = 0x10, FIRST = 0x18 };

struct descriptor {
    u16 limit, base_low;
    u8 base_middle, access, flags, base_high;
};

/* A task state segment of the 386: 104 bytes. */
struct tss {
    u32 link, esp0, ss0, esp1, ss1, esp2, ss2, cr3;
    u32 eip, eflags, eax, ecx, edx, ebx, esp, ebp, esi, edi;
    u32 es, cs, ss, ds, fs, gs, ldt;
    u16 trap, map;
};

#define FLAT(access) { 0xffff, 0, 0, (access), 0xcf, 0 }
#define TASK(base) { sizeof(struct tss) - 1, (base), 0, 0x89, 0, 0 }    /* available */

/* link.ld puts the two task state segments at 2000h and 2068h. */
const struct descriptor gdt[5] = { { 0 }, FLAT(0x9b), FLAT(0x93), TASK(0x2000), TASK(0x2068) };

static u32 stack[64];
volatile u32 turns[2];

void go_to_first(void);
void go_to_second(void);

static void second(void)
{
    for (;;) {
        turns[1]++;
        go_to_first();
    }
}

struct tss tasks[2] __attribute__((section(".tasks"))) = {
    [1] = {
        .eip = (u32)second, .eflags = 2, .esp = (u32)(stack + 64), .map = sizeof(struct tss),
        .cs = CODE, .ss = DATA, .ds = DATA, .es = DATA, .fs = DATA, .gs = DATA,
    },
};

void kernel(void)
{
    __asm__ volatile("ltr %w0" : : "r"(FIRST));     /* what runs now is the first task from here on */
    for (;;) {
        turns[0]++;
        go_to_second();
    }
}
