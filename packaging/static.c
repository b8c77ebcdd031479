/* Stands in for the kit's C archives, as far as lrcheck and lrt take something from them, in programs that are linked statically
 * with musl. The archives come by the arguments in an initialiser, to which musl hands none: here the linker has `main` wrapped
 * (--wrap=main). */
#define _GNU_SOURCE
#include <errno.h>
#include <stddef.h>
#include <stdlib.h>
#include <sys/syscall.h>
#include <unistd.h>

static size_t count;
static char **arguments;

int __real_main(int argc, char **argv);

int __wrap_main(int argc, char **argv)
{
    count = (size_t)argc;
    arguments = argv;
    return __real_main(argc, argv);
}

/* Copies a text to a place of so many bytes. Answers how long it is; -1 where there is none, and -2 where it is longer. */
static ptrdiff_t copied(const char *text, unsigned char *place, size_t size)
{
    size_t length;

    if (!text)
        return -1;
    for (length = 0; text[length]; length++) {
        if (length == size)
            return -2;
        place[length] = (unsigned char)text[length];
    }
    return (ptrdiff_t)length;
}

/* How many arguments there are, with the name of the program; and each of them. */
size_t rattle_arg_count(void)
{
    return count;
}

ptrdiff_t rattle_arg(size_t number, unsigned char *place, size_t size)
{
    return copied(number < count ? arguments[number] : NULL, place, size);
}

/* The value of a variable of the environment; and each of its lines. */
ptrdiff_t rattle_env(const char *name, unsigned char *place, size_t size)
{
    return copied(getenv(name), place, size);
}

ptrdiff_t rattle_env_at(size_t number, unsigned char *place, size_t size)
{
    char **line = environ;

    while (line && *line && number) {
        line++;
        number--;
    }
    return copied(line ? *line : NULL, place, size);
}

int rattle_errno(void)
{
    return errno;
}

void rattle_set_errno(int number)
{
    errno = number;
}

/* What the system knows of a file, for which musl had no function before 1.2.5. */
int statx(int folder, const char *restrict path, int flags, unsigned mask, void *restrict known)
{
    return (int)syscall(SYS_statx, folder, path, flags, mask, known);
}
