/*
 * Preloaded before the C library: the second read of standard input fails, as
 * on a disk that goes bad in the middle of a file.
 */
#define _GNU_SOURCE
#include <dlfcn.h>
#include <errno.h>
#include <unistd.h>

ssize_t read(int descriptor, void *buffer, size_t size)
{
    static int reads;
    ssize_t (*real)(int, void *, size_t) = (ssize_t (*)(int, void *, size_t))dlsym(RTLD_NEXT, "read");
    if (descriptor == STDIN_FILENO && ++reads == 2) {
        errno = EIO;
        return -1;
    }
    return real(descriptor, buffer, size);
}
