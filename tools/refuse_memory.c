/* Refuses one allocation of a program: preloaded, it answers no memory at the malloc or realloc whose number stands in REFUSE, counted from
 * 1 over all threads. With REFUSE=0 none is refused, and their number is written to standard error at the end.
 */
#define _GNU_SOURCE
#include <errno.h>
#include <stdatomic.h>
#include <stdio.h>
#include <stdlib.h>
#include <sys/syscall.h>
#include <unistd.h>

extern void *__libc_malloc(size_t size);
extern void *__libc_realloc(void *at, size_t size);

static atomic_long made;
static long refused = -1;

static int is_refused(void)
{
    if (refused < 0) refused = atol(getenv("REFUSE") ? getenv("REFUSE") : "0");
    if (atomic_fetch_add(&made, 1) + 1 != refused) return 0;
    errno = ENOMEM;
    return 1;
}

void *malloc(size_t size)
{
    return is_refused() ? NULL : __libc_malloc(size);
}

void *realloc(void *at, size_t size)
{
    return is_refused() ? NULL : __libc_realloc(at, size);
}

/* The program ends by this call. */
void _exit(int status)
{
    if (refused == 0) dprintf(2, "%ld allocations\n", atomic_load(&made));
    for (;;) syscall(SYS_exit_group, status);
}
