/*
 * A read and a write in place of the C library's, loaded before it into the program: they answer for
 * standard input and standard output as the variables READS and WRITES say, so that failures can be
 * had at any place of a stream.
 *
 * A variable is a list such as `2x5,1x-4,3x0`: so many calls that answer so. An answer above 0 moves at
 * most so many bytes, 0 moves nothing, and one below 0 fails with that number in errno. When the list
 * is used up, and on other streams, the call goes to the system as it is.
 */
#define _GNU_SOURCE
#include <errno.h>
#include <stdlib.h>
#include <sys/syscall.h>
#include <unistd.h>

enum { AS_IT_IS = 1 << 30 };

/* The answer to the call of this number, counted from 0. */
static long answer(const char *variable, long call)
{
    const char *list = getenv(variable);
    while (list != NULL && *list != '\0') {
        char *end;
        long times = strtol(list, &end, 10);
        long said = strtol(end + 1, &end, 10);
        if (call < times) {
            return said;
        }
        call -= times;
        list = *end == ',' ? end + 1 : end;
    }
    return AS_IT_IS;
}

static ssize_t moved(long number, int descriptor, void *bytes, size_t count, long said)
{
    if (said < 0) {
        errno = (int)-said;
        return -1;
    }
    return syscall(number, descriptor, bytes, count < (size_t)said ? count : (size_t)said);
}

ssize_t read(int descriptor, void *bytes, size_t count)
{
    static long calls;
    long said = descriptor == STDIN_FILENO ? answer("READS", calls++) : AS_IT_IS;
    return moved(SYS_read, descriptor, bytes, count, said);
}

ssize_t write(int descriptor, const void *bytes, size_t count)
{
    static long calls;
    long said = descriptor == STDOUT_FILENO ? answer("WRITES", calls++) : AS_IT_IS;
    return moved(SYS_write, descriptor, (void *)bytes, count, said);
}
