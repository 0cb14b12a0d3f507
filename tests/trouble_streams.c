// Troubles the reads and writes of a program. It is loaded before the C library:
//
//     cc -O2 -shared -fPIC -o trouble_streams.so trouble_streams.c
//     MOST_BYTES=1 READ_FAILS_AT=3 LD_PRELOAD=./trouble_streams.so PROGRAM ...
//
// READ_FAILS_AT, WRITE_FAILS_AT   the read of standard input, or the write to standard output, with this number, counted
//                                 from 1, fails as on a broken device; with 0, or without it, none does
// MOST_BYTES                      no read or write moves more bytes than this
// CALLS                           the file to which the numbers of reads and of writes are written at the end
//
// What is written to standard error goes its way.
#include <errno.h>
#include <stdio.h>
#include <stdlib.h>
#include <sys/syscall.h>
#include <unistd.h>

// How many reads of standard input and writes to standard output there were.
static long calls[2];

static long number(const char *name) {
    const char *text = getenv(name);
    return text ? strtol(text, NULL, 10) : 0;
}

// How many bytes a call may move; 0 if it is the one that fails.
static size_t allowed(int file, const char *fails_at, size_t length) {
    size_t most = (size_t)number("MOST_BYTES");
    if (++calls[file] == number(fails_at)) {
        errno = EIO;
        return 0;
    }
    return most && most < length ? most : length;
}

ssize_t read(int file, void *to, size_t length) {
    if (file == STDIN_FILENO && length && !(length = allowed(file, "READ_FAILS_AT", length)))
        return -1;
    return syscall(SYS_read, file, to, length);
}

ssize_t write(int file, const void *from, size_t length) {
    if (file == STDOUT_FILENO && length && !(length = allowed(file, "WRITE_FAILS_AT", length)))
        return -1;
    return syscall(SYS_write, file, from, length);
}

ssize_t __write(int file, const void *from, size_t length) { return write(file, from, length); }

__attribute__((destructor)) static void tell(void) {
    const char *place = getenv("CALLS");
    FILE *file = place ? fopen(place, "w") : NULL;
    if (file) {
        fprintf(file, "%ld %ld\n", calls[STDIN_FILENO], calls[STDOUT_FILENO]);
        fclose(file);
    }
}

// A program with threads ends by this call, which runs no destructor.
void _exit(int status) {
    tell();
    for (;;)
        syscall(SYS_exit_group, status);
}
