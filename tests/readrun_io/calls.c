// Loaded before the C library (LD_PRELOAD), it has reads of standard input and writes to standard output of the program
// readrun go wrong as the variable CALLS says, a list of words:
//
//   short=N     a call moves at most N bytes
//   interrupt   every other call is interrupted by a signal before it moves a byte, the first one too
//   read=K      the Kth read, and every later one, fails; write=K likewise
//   sync        a file cannot be stored
#define _GNU_SOURCE
#include <errno.h>
#include <stdlib.h>
#include <string.h>
#include <sys/syscall.h>
#include <unistd.h>

// The number of a word of CALLS, 1 where it has none; 0 where the word is not there.
static size_t asked(const char *word) {
    const char *calls = getenv("CALLS");
    const char *at = calls && !strcmp(program_invocation_short_name, "readrun") ? strstr(calls, word) : NULL;
    if (!at) return 0;
    at += strlen(word);
    return *at == '=' ? strtoul(at + 1, NULL, 10) : 1;
}

// How many bytes of n a call may move; 0 where it is to fail, and errno says why.
static size_t allowed(const char *word, size_t n, size_t *made, size_t *tries) {
    size_t short_count = asked("short"), last = asked(word);
    if (asked("interrupt") && ++*tries % 2) return errno = EINTR, 0;
    if (last && ++*made >= last) return errno = EIO, 0;
    return short_count && short_count < n ? short_count : n;
}

ssize_t read(int fd, void *buffer, size_t n) {
    static size_t made, tries;
    if (fd == 0 && n) n = allowed("read", n, &made, &tries);
    return fd == 0 && !n ? -1 : syscall(SYS_read, fd, buffer, n);
}

ssize_t write(int fd, const void *buffer, size_t n) {
    static size_t made, tries;
    if (fd == 1 && n) n = allowed("write", n, &made, &tries);
    return fd == 1 && !n ? -1 : syscall(SYS_write, fd, buffer, n);
}

int fdatasync(int fd) {
    if (asked("sync")) return errno = ENOSPC, -1;
    return syscall(SYS_fdatasync, fd);
}
