/* Unicorn on XCHG [8000h], EAX and a jump back to it, with C hooks that write a line as m386 has it for each aligned group that is
 * fetched and each access of memory. The lines are buffered. It keeps no cycle, and makes no claim on the order of cycles.
 *
 * hooks N      N instructions; needs Debian's libunicorn-dev: gcc -O2 -o hooks hooks.c -lunicorn
 */
#include <stdio.h>
#include <stdlib.h>
#include <unicorn/unicorn.h>

static const uint8_t code[] = { 0x87, 0x05, 0x00, 0x80, 0x00, 0x00, 0xeb, 0xf8, 0x90 };

static void line(char direction, const char *role, uint64_t addr, unsigned enables, uint32_t value)
{
    printf("c 0 m %c . %s 00 %08x %x %08x\n", direction, role, (unsigned)addr, enables, value);
}

static void on_code(uc_engine *uc, uint64_t addr, uint32_t size, void *unused)
{
    (void)unused;
    for (uint64_t group = addr - addr % 4; group < addr + size; group += 4) {
        uint32_t value = 0;
        uc_mem_read(uc, group, &value, 4);
        line('r', "fetch", group, 15, value);
    }
}

static void on_access(uc_engine *uc, uc_mem_type type, uint64_t addr, int size, int64_t written, void *unused)
{
    uint32_t value = (uint32_t)written;
    (void)unused;
    if (type == UC_MEM_READ) uc_mem_read(uc, addr, &value, size);
    line(type == UC_MEM_WRITE ? 'w' : 'r', "data", addr, 15, value);
}

int main(int argc, char **argv)
{
    static char buffer[1 << 16];
    uc_engine *uc;
    uc_hook of_code, of_accesses;
    if (argc != 2 || uc_open(UC_ARCH_X86, UC_MODE_32, &uc)) return 1;
    setvbuf(stdout, buffer, _IOFBF, sizeof buffer);
    uc_mem_map(uc, 0, 0x10000, UC_PROT_ALL);
    uc_mem_write(uc, 0x1000, code, sizeof code);
    uc_hook_add(uc, &of_code, UC_HOOK_CODE, (void *)on_code, 0, 1, 0);
    uc_hook_add(uc, &of_accesses, UC_HOOK_MEM_READ | UC_HOOK_MEM_WRITE, (void *)on_access, 0, 1, 0);
    uc_emu_start(uc, 0x1000, 0x2000, 0, strtoull(argv[1], 0, 10));
    return fflush(stdout) != 0;
}
