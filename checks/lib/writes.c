/* Notes what a program writes and syncs, for checks/serve/syncs.py: in the file that WRITES names, a letter each, in their
   order: J for a write to a regular file, S for a sync of one, R for a write to a socket. It is loaded before the C
   library. */
#define _GNU_SOURCE
#include <fcntl.h>
#include <stdlib.h>
#include <sys/socket.h>
#include <sys/stat.h>
#include <sys/syscall.h>
#include <sys/uio.h>
#include <unistd.h>

static void note(char letter)
{
    static int file = -1;
    const char *name = getenv("WRITES");
    if (file < 0 && name)
        file = open(name, O_WRONLY | O_APPEND | O_CREAT | O_CLOEXEC, 0600);
    if (file >= 0)
        syscall(SYS_write, file, &letter, 1);
}

static void note_write(int file)
{
    struct stat about;
    if (fstat(file, &about) == 0) {
        if (S_ISREG(about.st_mode))
            note('J');
        if (S_ISSOCK(about.st_mode))
            note('R');
    }
}

static void note_sync(int file)
{
    struct stat about;
    if (fstat(file, &about) == 0 && S_ISREG(about.st_mode))
        note('S');
}

/* (a sync is noted once it is done, a write before it is made) */
int fdatasync(int file)
{
    int status = (int)syscall(SYS_fdatasync, file);
    if (status == 0)
        note_sync(file);
    return status;
}

int fsync(int file)
{
    int status = (int)syscall(SYS_fsync, file);
    if (status == 0)
        note_sync(file);
    return status;
}

ssize_t write(int file, const void *octets, size_t count)
{
    note_write(file);
    return syscall(SYS_write, file, octets, count);
}

ssize_t writev(int file, const struct iovec *pieces, int count)
{
    note_write(file);
    return syscall(SYS_writev, file, pieces, count);
}

ssize_t send(int file, const void *octets, size_t count, int how)
{
    note_write(file);
    return syscall(SYS_sendto, file, octets, count, how, NULL, 0);
}

ssize_t sendto(int file, const void *octets, size_t count, int how, const struct sockaddr *to, socklen_t size)
{
    note_write(file);
    return syscall(SYS_sendto, file, octets, count, how, to, size);
}
