/*
 * The functions by which a proved program is handed its arguments and reads C's errno. The toolchain has its own for
 * x86-64 alone; a program that is linked for a release or a measurement takes these in their place, on every kind of
 * machine.
 */
#include "arguments.h"
#include <errno.h>
#include <stddef.h>
#include <string.h>
#include <sys/types.h>

static int count;
static char **words;

void give_arguments(int argc, char **argv)
{
    count = argc;
    words = argv;
}

/* The C library hands a constructor what it hands main: where nobody gives any, these are the arguments. */
__attribute__((constructor)) static void take(int argc, char **argv)
{
    give_arguments(argc, argv);
}

size_t rattle_arg_count(void)
{
    return (size_t)count;
}

/* Argument i at the start of buf, and its length; -1 where there is none, -2 where it does not fit. */
ssize_t rattle_arg(size_t i, unsigned char *buf, size_t room)
{
    if (i >= (size_t)count)
        return -1;
    size_t length = strlen(words[i]);
    memcpy(buf, words[i], length < room ? length : room);
    return length <= room ? (ssize_t)length : -2;
}

int rattle_errno(void)
{
    return errno;
}

void rattle_set_errno(int error)
{
    errno = error;
}
