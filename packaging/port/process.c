/* errno, the words of the command line and the environment for a proved program, as the toolchain's rattle/os/src/c.rt states them,
 * for targets for which the toolchain has no archive of it. */
#include <errno.h>
#include <stddef.h>
#include <stdlib.h>

int rattle_errno(void)
{
    return errno;
}

void rattle_set_errno(int number)
{
    errno = number;
}

/* The length of a text that is copied without its NUL, or -2 if it is longer than the room. */
static long copy(const char *from, char *to, size_t room)
{
    size_t length = 0;
    for (; from[length]; length++) {
        if (length == room)
            return -2;
        to[length] = from[length];
    }
    return (long)length;
}

static int word_count;
static char **words;

/* glibc calls a constructor with the arguments of main. */
__attribute__((constructor)) static void keep_words(int count, char **given)
{
    word_count = count;
    words = given;
}

size_t rattle_arg_count(void)
{
    return (size_t)word_count;
}

long rattle_arg(size_t index, char *to, size_t room)
{
    return index < (size_t)word_count && words[index] ? copy(words[index], to, room) : -1;
}

long rattle_env(const char *name, char *to, size_t room)
{
    const char *value = getenv(name);
    return value ? copy(value, to, room) : -1;
}
