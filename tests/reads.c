/* Stands in for read and write of standard input and output, where it is preloaded: each call moves one byte at the most, and
 * before it one call in three is interrupted. After READS_BYTES bytes were read, a read fails.
 */
#define _GNU_SOURCE /* RTLD_NEXT */
#include <dlfcn.h>
#include <errno.h>
#include <stdlib.h>
#include <unistd.h>

static int interrupted(void)
{
    static int calls;
    calls++;
    if (calls % 3 != 0)
        return 0;
    errno = EINTR;
    return 1;
}

ssize_t read(int fd, void *bytes, size_t size)
{
    static ssize_t (*real)(int, void *, size_t);
    static long long left = -1;
    if (real == NULL) {
        real = (ssize_t(*)(int, void *, size_t))dlsym(RTLD_NEXT, "read");
        left = atoll(getenv("READS_BYTES"));
    }
    if (fd != STDIN_FILENO)
        return real(fd, bytes, size);
    if (interrupted())
        return -1;
    if (left == 0) {
        errno = EIO;
        return -1;
    }
    ssize_t got = real(fd, bytes, size != 0);
    left -= got;
    return got;
}

ssize_t write(int fd, const void *bytes, size_t size)
{
    static ssize_t (*real)(int, const void *, size_t);
    if (real == NULL)
        real = (ssize_t(*)(int, const void *, size_t))dlsym(RTLD_NEXT, "write");
    if (fd != STDOUT_FILENO)
        return real(fd, bytes, size);
    if (interrupted())
        return -1;
    return real(fd, bytes, size != 0);
}
