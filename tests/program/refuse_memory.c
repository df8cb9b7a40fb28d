/* Refuses one growth of memory: loaded before the C library (LD_PRELOAD), it counts the calls of malloc and realloc, and the one of
   the number in REFUSED, counted from 1, gives nothing. The count is kept in the file that COUNTED names, so that it can be read
   however the program ends. tests/program/no_memory.py compiles and loads it. */
#include <fcntl.h>
#include <stdatomic.h>
#include <stddef.h>
#include <stdlib.h>
#include <sys/mman.h>
#include <unistd.h>

extern void *__libc_malloc(size_t size);
extern void *__libc_realloc(void *kept, size_t size);

static _Atomic long without_a_file;
static _Atomic long *calls = &without_a_file;
static long refused;

__attribute__((constructor)) static void begin(void)
{
    const char *path = getenv("COUNTED");
    const char *number = getenv("REFUSED");
    refused = number ? atol(number) : 0;
    int file = path ? open(path, O_RDWR) : -1;
    if (file < 0)
        return;
    void *page = mmap(NULL, sizeof(long), PROT_READ | PROT_WRITE, MAP_SHARED, file, 0);
    close(file);
    if (page != MAP_FAILED)
        calls = page;
}

static int is_refused(void)
{
    return atomic_fetch_add(calls, 1) + 1 == refused;
}

void *malloc(size_t size)
{
    return is_refused() ? NULL : __libc_malloc(size);
}

void *realloc(void *kept, size_t size)
{
    return is_refused() ? NULL : __libc_realloc(kept, size);
}
