// Makes one call of a program short, or interrupts it behind its work. LD_PRELOAD it. SHORTEN is the name of a call, a
// number from 1, and a way, as in "read 2 one":
//
//   one          the call moves one byte, where it was asked for more
//   most         the call moves one byte less than it was asked for
//   EINTR, EIO   a `close` or a `connect` does its work, and then says that it was interrupted, or that it failed
//   room         a `send` takes nothing, as where there is no room
//   full         as room, and the wait for room that follows is interrupted
//
// Where the call comes, a file with the name SHORTEN_SAID is made.
#define _GNU_SOURCE
#include <errno.h>
#include <fcntl.h>
#include <poll.h>
#include <stdio.h>
#include <stdlib.h>
#include <string.h>
#include <sys/socket.h>
#include <sys/syscall.h>
#include <unistd.h>

static char call[16], way[16], *said;
static unsigned long number, made;
static int is_full;

__attribute__((constructor)) static void begin(void) {
    char *text = getenv("SHORTEN");
    said = getenv("SHORTEN_SAID");
    if (!text || sscanf(text, "%15s %lu %15s", call, &number, way) != 3) number = 0;
}

static int is_meant(const char *name) { return number && !strcmp(call, name); }

// Whether it is this call's turn.
static int is_next(const char *name) {
    if (!is_meant(name) || __atomic_add_fetch(&made, 1, __ATOMIC_SEQ_CST) != number) return 0;
    long file = said ? syscall(SYS_open, said, O_CREAT | O_WRONLY | O_CLOEXEC, 0600) : -1;
    if (file >= 0) syscall(SYS_close, file);
    return 1;
}

// How many bytes the call is to move, where it was asked for so many. Calls for one byte can't be short, and are not
// counted.
static size_t moved(const char *name, size_t asked) {
    if (asked < 2 || !is_next(name)) return asked;
    return strcmp(way, "most") ? 1 : asked - 1;
}

// The result of a call that was done, or the error that it says in its place.
static int told(int is_turn, long result) {
    if (!is_turn || result < 0) return (int)result;
    errno = strcmp(way, "EIO") ? EINTR : EIO;
    return -1;
}

ssize_t read(int fd, void *bytes, size_t n) { return syscall(SYS_read, fd, bytes, moved("read", n)); }
ssize_t write(int fd, const void *bytes, size_t n) { return syscall(SYS_write, fd, bytes, moved("write", n)); }
ssize_t __write(int fd, const void *bytes, size_t n) { return write(fd, bytes, n); }
ssize_t pread(int fd, void *bytes, size_t n, off_t at) { return syscall(SYS_pread64, fd, bytes, moved("pread64", n), at); }
ssize_t pread64(int fd, void *bytes, size_t n, off_t at) { return pread(fd, bytes, n, at); }
ssize_t pwrite(int fd, const void *bytes, size_t n, off_t at) { return syscall(SYS_pwrite64, fd, bytes, moved("pwrite64", n), at); }
ssize_t pwrite64(int fd, const void *bytes, size_t n, off_t at) { return pwrite(fd, bytes, n, at); }
int close(int fd) { return told(is_next("close"), syscall(SYS_close, fd)); }
int connect(int fd, const struct sockaddr *name, socklen_t n) { return told(is_next("connect"), syscall(SYS_connect, fd, name, n)); }

// Calls that find no bytes, or one, can't be short either.
ssize_t recv(int fd, void *bytes, size_t n, int flags) {
    int is_more = is_meant("recvfrom") && syscall(SYS_recvfrom, fd, bytes, n, flags | MSG_PEEK, 0, 0) > 1;
    return syscall(SYS_recvfrom, fd, bytes, is_more ? moved("recvfrom", n) : n, flags, 0, 0);
}

ssize_t send(int fd, const void *bytes, size_t n, int flags) {
    int is_long = strcmp(way, "one") && strcmp(way, "most");
    if (is_long && is_next("sendto")) {
        __atomic_store_n(&is_full, !strcmp(way, "full"), __ATOMIC_SEQ_CST);
        errno = EAGAIN;
        return -1;
    }
    return syscall(SYS_sendto, fd, bytes, is_long ? n : moved("sendto", n), flags, 0, 0);
}

int poll(struct pollfd *asked, nfds_t n, int wait) {
    if (n && asked->events == POLLOUT && __atomic_exchange_n(&is_full, 0, __ATOMIC_SEQ_CST)) {
        errno = EINTR;
        return -1;
    }
    return (int)syscall(SYS_poll, asked, n, wait);
}
