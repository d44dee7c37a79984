/* Moves the clocks of a program, for checks/serve/clocks.py: the file that CLOCKS names has two numbers, the seconds that
   are added to the wall clock and those that are added to the steady one, and is read at each reading of a clock. It is
   loaded before the C library. */
#define _GNU_SOURCE
#include <fcntl.h>
#include <stdlib.h>
#include <sys/syscall.h>
#include <time.h>
#include <unistd.h>

/* Returns one of the two numbers, 0 where the file can't be read. */
static long moved(int place)
{
    char text[64] = "", *end;
    const char *name = getenv("CLOCKS");
    int file = name ? open(name, O_RDONLY) : -1;
    if (file < 0)
        return 0;
    if (read(file, text, sizeof text - 1) < 0)
        text[0] = 0;
    close(file);
    long wall = strtol(text, &end, 10);
    return place ? strtol(end, NULL, 10) : wall;
}

int clock_gettime(clockid_t clock, struct timespec *time)
{
    int status = (int)syscall(SYS_clock_gettime, clock, time);
    /* (of the wall clock, as of the last tick too) */
    if (status == 0 && (clock == CLOCK_REALTIME || clock == CLOCK_REALTIME_COARSE || clock == CLOCK_MONOTONIC))
        time->tv_sec += moved(clock == CLOCK_MONOTONIC);
    return status;
}
