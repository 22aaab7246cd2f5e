/* Faults between a program and the system, for run `program`: loaded before the C library, it answers some of the calls of `read` on standard
 * input and of `write` on standard output in its place. CUE_FAULTS has them, one behind the other and with commas between:
 *
 *   r3:5       the third read fails with error 5, and moves nothing
 *   w2:4       the second write fails with error 4
 *   R5:0       every read gives at most 5 bytes
 *   W1000:0    every write takes at most 1000 bytes
 */
#define _GNU_SOURCE
#include <errno.h>
#include <stdlib.h>
#include <sys/syscall.h>
#include <sys/types.h>
#include <unistd.h>

static long number_at(const char **text) {
    long number = 0;
    for (; **text >= '0' && **text <= '9'; ++*text)
        number = 10 * number + (**text - '0');
    if (**text != '\0')
        ++*text;
    return number;
}

static ssize_t moved(char fault, char limit, long number, long call, int fd, void *bytes, size_t count) {
    const char *text = getenv("CUE_FAULTS");
    while (text != NULL && *text != '\0') {
        char kind = *text++;
        long first = number_at(&text), second = number_at(&text);
        if (kind == fault && first == number) {
            errno = (int)second;
            return -1;
        }
        if (kind == limit && (size_t)first < count)
            count = (size_t)first;
    }
    return syscall(call, fd, bytes, count);
}

ssize_t read(int fd, void *bytes, size_t count) {
    static long number;
    return fd == STDIN_FILENO ? moved('r', 'R', ++number, SYS_read, fd, bytes, count) : syscall(SYS_read, fd, bytes, count);
}

ssize_t write(int fd, const void *bytes, size_t count) {
    static long number;
    return fd == STDOUT_FILENO ? moved('w', 'W', ++number, SYS_write, fd, (void *)bytes, count) : syscall(SYS_write, fd, bytes, count);
}
