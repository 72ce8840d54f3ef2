/* Runs single instructions in 32-bit mode on this machine's own processor, which must be of the x86 family under Linux.
   compare_instructions.py builds it, and gives it cases of instructions of the 80386.

   A case on standard input is 120 bytes: the instruction (16, of which the next number says how many count), EAX, ECX, EDX,
   EBX, ESP, EBP, ESI, EDI, the flags, and the 64 bytes at 2000h. Its answer on standard output is 112 bytes: the registers
   in the same order, the flags, the vector of the exception or FFFFFFFFh, EIP, how many other bytes of the data page
   changed, and the 64 bytes. The instruction stands at 1000h, and all segments are flat.

   It is a process of 32 bits with no library: ESP is a register of the case like the others, so exceptions are taken on a
   stack of their own, and nothing else may use the stack meanwhile. */

typedef unsigned char u8;
typedef unsigned int u32;

enum { CODE = 0x1000, DATA = 0x2000, PAGE = 4096, AREA = 64, MANY = 256, FILLED = 0xa5a5a5a5 };

struct Case {
    u8 code[16];
    u32 length;
    u32 registers[8];
    u32 flags;
    u8 data[AREA];
};

struct Answer {
    u32 registers[8];
    u32 flags;
    u32 vector;
    u32 eip;
    u32 strays;
    u8 data[AREA];
};

/* What the assembly below loads and stores. */
u32 registers[8], flags, host_stack;
static u32 vector, eip;

static struct Case cases[MANY];
static struct Answer answers[MANY];
static u8 signal_stack[65536];

static int call(int number, int first, int second, int third, int fourth) {
    int result;
    __asm__ volatile("int $0x80" : "=a"(result) : "a"(number), "b"(first), "c"(second), "d"(third), "S"(fourth) : "memory");
    return result;
}

__attribute__((noreturn)) static void leave(int status) {
    for (;;) call(1, status, 0, 0, 0);
}

/* Loads flags and registers, jumps to the instruction, and stores them at `landing`, to which a jump behind it leads. */
void run_case(void);
void landing(void);
void resume(void);
void restore(void);

__asm__(".text\n"
        "run_case:\n"
        "    pushal\n"
        "    movl %esp, host_stack\n"
        "    pushl flags\n"
        "    popfl\n"
        "    movl registers, %eax\n"
        "    movl registers+4, %ecx\n"
        "    movl registers+8, %edx\n"
        "    movl registers+12, %ebx\n"
        "    movl registers+16, %esp\n"
        "    movl registers+20, %ebp\n"
        "    movl registers+24, %esi\n"
        "    movl registers+28, %edi\n"
        "    jmp *entry\n"
        "landing:\n"
        "    movl %eax, registers\n"
        "    movl %ecx, registers+4\n"
        "    movl %edx, registers+8\n"
        "    movl %ebx, registers+12\n"
        "    movl %esp, registers+16\n"
        "    movl %ebp, registers+20\n"
        "    movl %esi, registers+24\n"
        "    movl %edi, registers+28\n"
        "    movl host_stack, %esp\n"
        "    pushfl\n"
        "    popl flags\n"
        "resume:\n"
        "    movl host_stack, %esp\n"
        "    cld\n"
        "    popal\n"
        "    ret\n"
        "restore:\n"
        "    movl $173, %eax\n"
        "    int $0x80\n"
        ".data\n"
        "entry: .long 0x1000\n"
        ".text\n");

/* The registers of the interrupted code, as the kernel lays them out for a signal. */
struct Context {
    u32 flags, link, stack[3];
    u32 gs, fs, es, ds, edi, esi, ebp, esp, ebx, edx, ecx, eax, trap, error, eip, cs, eflags;
};

/* Keeps what an exception found, and goes on at `resume`. */
static void on_exception(int number, void *info, struct Context *c) {
    (void)number;
    (void)info;
    u32 found[8] = {c->eax, c->ecx, c->edx, c->ebx, c->esp, c->ebp, c->esi, c->edi};
    for (int i = 0; i < 8; i++) registers[i] = found[i];
    flags = c->eflags;
    vector = c->trap;
    eip = c->eip;
    if (eip != CODE) leave(3);
    c->eip = (u32)resume;
    c->eflags &= ~0x400u;
}

static void take_signals(void) {
    struct { void *base; u32 flags, size; } stack = {signal_stack, 0, sizeof signal_stack};
    struct { void *handler; u32 flags; void *restorer; u32 mask[2]; } action = {on_exception, 0x0c000004 | 0x40000000, restore, {0, 0}};
    static const int NUMBERS[] = {4, 5, 7, 8, 11};
    if (call(186, (int)&stack, 0, 0, 0) != 0) leave(4);
    for (int i = 0; i < 5; i++)
        if (call(174, NUMBERS[i], (int)&action, 0, 8) != 0) leave(4);
}

/* One case: the pages are laid out, it runs, and the pages are looked through. */
static void answer(const struct Case *c, struct Answer *a) {
    u8 *code = (u8 *)CODE, *data = (u8 *)DATA;
    u32 *rest = (u32 *)(DATA + AREA);
    for (u32 i = 0; i < c->length; i++) code[i] = c->code[i];
    code[c->length] = 0xe9;
    u32 distance = (u32)landing - (CODE + c->length + 5);
    for (int i = 0; i < 4; i++) code[c->length + 1 + i] = distance >> (8 * i);
    for (int i = 0; i < AREA; i++) data[i] = c->data[i];
    for (int i = 0; i < 8; i++) registers[i] = c->registers[i];
    flags = c->flags;
    vector = 0xffffffff;
    eip = CODE + c->length;
    run_case();
    for (int i = 0; i < 8; i++) a->registers[i] = registers[i];
    a->flags = flags;
    a->vector = vector;
    a->eip = eip;
    a->strays = 0;
    for (int i = 0; i < (PAGE - AREA) / 4; i++)
        if (rest[i] != FILLED) {
            a->strays++;
            rest[i] = FILLED;
        }
    for (int i = 0; i < AREA; i++) a->data[i] = data[i];
}

static u32 read_cases(void) {
    u32 size = 0;
    while (size < sizeof cases) {
        int count = call(3, 0, (int)((u8 *)cases + size), sizeof cases - size, 0);
        if (count < 0) leave(5);
        if (count == 0) break;
        size += count;
    }
    return size / sizeof(struct Case);
}

static void write_answers(u32 count) {
    u32 size = count * sizeof(struct Answer), done = 0;
    while (done < size) {
        int written = call(4, 1, (int)((u8 *)answers + done), size - done, 0);
        if (written <= 0) leave(6);
        done += written;
    }
}

__attribute__((used)) static void run_all(void) {
    u32 pages[6] = {CODE, 2 * PAGE, 7, 0x32, -1, 0};
    if ((u32)call(90, (int)pages, 0, 0, 0) != CODE) leave(2);
    for (u32 *at = (u32 *)DATA; at < (u32 *)(DATA + PAGE); at++) *at = FILLED;
    take_signals();
    /* FS and GS are of no use in such a process until they are loaded. */
    __asm__ volatile("movw %%ds, %%ax\n\tmovw %%ax, %%fs\n\tmovw %%ax, %%gs" : : : "eax");
    for (;;) {
        u32 count = read_cases();
        if (count == 0) leave(0);
        for (u32 i = 0; i < count; i++) answer(&cases[i], &answers[i]);
        write_answers(count);
    }
}

__asm__(".globl _start\n_start:\n    call run_all\n    hlt\n");
