/* Refuses one allocation of the program that it is loaded into: the one that the environment variable REFUSE numbers, from
 * 1, among those that the program's own text asks for. Those of the system's loader and libraries are let through. When it
 * refuses, it makes the file that the environment variable REFUSED names, so that a run beyond the last can be told.
 *
 *   cc -O2 -shared -fPIC -o refuse.so refuse.c -ldl
 *   REFUSE=7 REFUSED=/tmp/refused LD_PRELOAD=./refuse.so nvmetd run plan
 *
 * See ../refused-memory, which runs it. */
#define _GNU_SOURCE
#include <dlfcn.h>
#include <errno.h>
#include <fcntl.h>
#include <link.h>
#include <stdint.h>
#include <stdlib.h>
#include <unistd.h>

static uintptr_t first, last;
static unsigned long wanted, asked;

static int program(struct dl_phdr_info *info, size_t size, void *unused)
{
    (void)size;
    (void)unused;
    for (int i = 0; i < info->dlpi_phnum; i++) {
        const ElfW(Phdr) *part = &info->dlpi_phdr[i];
        if (part->p_type == PT_LOAD && (part->p_flags & PF_X)) {
            first = info->dlpi_addr + part->p_vaddr;
            last = first + part->p_memsz;
        }
    }
    return 1; /* the program comes first */
}

__attribute__((constructor)) static void begin(void)
{
    const char *number = getenv("REFUSE");
    dl_iterate_phdr(program, NULL);
    wanted = number ? strtoul(number, NULL, 10) : 0;
}

static int refuses(const void *caller)
{
    uintptr_t at = (uintptr_t)caller;
    if (at < first || at >= last || !wanted || ++asked != wanted)
        return 0;
    const char *name = getenv("REFUSED");
    if (name) {
        int file = open(name, O_CREAT | O_WRONLY, 0644);
        if (file >= 0)
            close(file);
    }
    errno = ENOMEM;
    return 1;
}

void *malloc(size_t size)
{
    static void *(*real)(size_t);
    if (!real)
        real = (void *(*)(size_t))dlsym(RTLD_NEXT, "malloc");
    return refuses(__builtin_return_address(0)) ? NULL : real(size);
}

void *realloc(void *old, size_t size)
{
    static void *(*real)(void *, size_t);
    if (!real)
        real = (void *(*)(void *, size_t))dlsym(RTLD_NEXT, "realloc");
    return refuses(__builtin_return_address(0)) ? NULL : real(old, size);
}

void *aligned_alloc(size_t alignment, size_t size)
{
    static void *(*real)(size_t, size_t);
    if (!real)
        real = (void *(*)(size_t, size_t))dlsym(RTLD_NEXT, "aligned_alloc");
    return refuses(__builtin_return_address(0)) ? NULL : real(alignment, size);
}

int posix_memalign(void **to, size_t alignment, size_t size)
{
    static int (*real)(void **, size_t, size_t);
    if (!real)
        real = (int (*)(void **, size_t, size_t))dlsym(RTLD_NEXT, "posix_memalign");
    return refuses(__builtin_return_address(0)) ? ENOMEM : real(to, alignment, size);
}
