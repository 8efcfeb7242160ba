/* read and write in place of the C library's, for tests/reduce/moves: each moves at most MOST bytes, every second call is interrupted by a
 * signal first where SIGNALS is set, and the call of read or write whose number is FAIL_READ or FAIL_WRITE, from 1, fails for good. Where
 * STRAY is set, what is written on standard output is written on standard error as well, as a wrong program might. */
#include <errno.h>
#include <stdlib.h>
#include <sys/syscall.h>
#include <unistd.h>

static long moved(long call, long fd, long bytes, size_t n) {
    long answer;
    __asm__ volatile("syscall" : "=a"(answer) : "0"(call), "D"(fd), "S"(bytes), "d"(n) : "rcx", "r11", "memory");
    if (answer < 0) {
        errno = (int)-answer;
        return -1;
    }
    return answer;
}

static long asked(const char *name) {
    const char *text = getenv(name);
    return text ? atol(text) : 0;
}

static ssize_t bent(long call, long fd, long bytes, size_t n, long *calls, const char *failing) {
    long most = asked("MOST");
    *calls += 1;
    if (asked(failing) && *calls >= asked(failing)) {
        errno = EIO;
        return -1;
    }
    if (asked("SIGNALS") && *calls % 2 == 1) {
        errno = EINTR;
        return -1;
    }
    return moved(call, fd, bytes, most && n > (size_t)most ? (size_t)most : n);
}

ssize_t read(int fd, void *bytes, size_t n) {
    static long calls;
    return bent(SYS_read, fd, (long)bytes, n, &calls, "FAIL_READ");
}

ssize_t write(int fd, const void *bytes, size_t n) {
    static long calls;
    if (fd != STDOUT_FILENO)
        return moved(SYS_write, fd, (long)bytes, n);
    if (asked("STRAY"))
        moved(SYS_write, STDERR_FILENO, (long)bytes, n);
    return bent(SYS_write, fd, (long)bytes, n, &calls, "FAIL_WRITE");
}
