/* Counts what a program asks of the allocator, for checks/memory/run: how many times, and how many octets in all. At the
   program's end both numbers are written, on one line, to the file that GROWTHS names. Where REFUSED is a number, the
   allocator refuses what is asked of it for that time, counted from 1. It is loaded before the C library. */
#include <fcntl.h>
#include <stddef.h>
#include <stdio.h>
#include <stdlib.h>
#include <sys/syscall.h>
#include <unistd.h>

void *__libc_malloc(size_t size);
void *__libc_realloc(void *block, size_t size);

static unsigned long calls, octets, refused;

__attribute__((constructor)) static void begin(void)
{
    const char *number = getenv("REFUSED");
    refused = number ? strtoul(number, NULL, 10) : 0;
}

/* Counts what is asked for, and tells whether it is refused. */
static int is_refused(size_t size)
{
    __atomic_add_fetch(&octets, size, __ATOMIC_RELAXED);
    return __atomic_add_fetch(&calls, 1, __ATOMIC_RELAXED) == refused;
}

void *malloc(size_t size)
{
    return is_refused(size) ? NULL : __libc_malloc(size);
}

void *realloc(void *block, size_t size)
{
    return is_refused(size) ? NULL : __libc_realloc(block, size);
}

__attribute__((destructor)) static void tell(void)
{
    const char *name = getenv("GROWTHS");
    char line[64];
    int length = snprintf(line, sizeof line, "%lu %lu\n", calls, octets);
    int file = name ? open(name, O_WRONLY | O_CREAT | O_TRUNC, 0600) : -1;
    if (file >= 0) {
        if (write(file, line, (size_t)length) != length)
            abort();
        close(file);
    }
}

/* The destructor does not run where the program ends itself so. */
void _exit(int status)
{
    tell();
    syscall(SYS_exit_group, status);
    __builtin_unreachable();
}
