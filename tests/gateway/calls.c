/*
 * Stands between the gateway and four system calls (ld's --wrap): lists them on stderr in their order, and lets those fail that FAIL names:
 * "send 105 1 2" gives errno 105 to the first and the second send. A send that fails with errno 0 takes half of the bytes.
 */
#include <errno.h>
#include <poll.h>
#include <stdbool.h>
#include <stdio.h>
#include <stdlib.h>
#include <string.h>
#include <sys/socket.h>
#include <sys/stat.h>

int __real_fsync(int file);
int __real_renameat(int from_folder, const char *from, int to_folder, const char *to);
ssize_t __real_send(int link, const void *bytes, size_t length, int flags);
int __real_ppoll(struct pollfd *polled, nfds_t count, const struct timespec *limit, const sigset_t *mask);

/* Lists a call, which is the n-th of its name, and sets errno where it is to fail. */
static bool fails(const char *call, const char *what, unsigned n)
{
    char named[16];
    unsigned first, last;
    int number;
    const char *fault = getenv("FAIL");
    bool fails = fault != NULL && sscanf(fault, "%15s %d %u %u", named, &number, &first, &last) == 4 && strcmp(named, call) == 0 &&
                 n >= first && n <= last;
    fprintf(stderr, "%s%s%s\n", call, what, fails ? " fails" : "");
    if (fails)
        errno = number;
    return fails;
}

int __wrap_fsync(int file)
{
    static unsigned count;
    struct stat kind;
    fstat(file, &kind);
    return fails("fsync", S_ISDIR(kind.st_mode) ? " folder" : " file", ++count) ? -1 : __real_fsync(file);
}

int __wrap_renameat(int from_folder, const char *from, int to_folder, const char *to)
{
    static unsigned count;
    return fails("rename", "", ++count) ? -1 : __real_renameat(from_folder, from, to_folder, to);
}

ssize_t __wrap_send(int link, const void *bytes, size_t length, int flags)
{
    static unsigned count;
    if (fails("send", "", ++count))
        return errno == 0 ? (ssize_t)length / 2 : -1;
    return __real_send(link, bytes, length, flags);
}

int __wrap_ppoll(struct pollfd *polled, nfds_t count, const struct timespec *limit, const sigset_t *mask)
{
    if (count == 0 || polled->events == POLLOUT)
        fprintf(stderr, "wait for %s\n", count == 0 ? "a moment" : "room");
    return __real_ppoll(polled, count, limit, mask);
}
