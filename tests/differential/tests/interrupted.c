/* A read that fails each other time, as one that a signal interrupts, and else gives three bytes at most. */
#define _GNU_SOURCE
#include <errno.h>
#include <sys/syscall.h>
#include <unistd.h>

ssize_t read(int from, void *to, size_t most)
{
    static unsigned calls;
    if (calls++ % 2 == 0) {
        errno = EINTR;
        return -1;
    }
    return syscall(SYS_read, from, to, most < 3 ? most : 3);
}
