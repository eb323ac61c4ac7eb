/* Preloaded into the program: reads of one file come in pieces, and one of them fails.
 *
 * READ_FILE   the file's name in its folder; no other file's reads are touched
 * READ_PIECE  at most so many bytes to a read (default: as many as are asked for)
 * READ_FAILS  which read of the file fails, the first being 1 (default: none); those after it go on where it stood
 * READ_ERRNO  the error that it fails with
 */
#define _GNU_SOURCE
#include <errno.h>
#include <stdio.h>
#include <stdlib.h>
#include <string.h>
#include <sys/syscall.h>
#include <unistd.h>

static long number(const char *name)
{
    const char *text = getenv(name);
    return text ? atol(text) : 0;
}

static int is_the_file(int fd)
{
    char link[64], path[4096];
    const char *file = getenv("READ_FILE");
    snprintf(link, sizeof link, "/proc/self/fd/%d", fd);
    ssize_t n = readlink(link, path, sizeof path - 1);
    if (n < 0 || !file)
        return 0;
    path[n] = 0;
    const char *slash = strrchr(path, '/');
    return slash && strcmp(slash + 1, file) == 0;
}

ssize_t read(int fd, void *buf, size_t count)
{
    static long reads;
    if (is_the_file(fd)) {
        long piece = number("READ_PIECE");
        if (++reads == number("READ_FAILS")) {
            errno = (int)number("READ_ERRNO");
            return -1;
        }
        if (piece > 0 && count > (size_t)piece)
            count = (size_t)piece;
    }
    return syscall(SYS_read, fd, buf, count);
}
