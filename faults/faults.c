/* Counts how often a program asks for memory and calls its devices, and has one of these calls fail, or all from one on.
 * It is preloaded (LD_PRELOAD), and takes the place of these functions of the C library. What it is to do stands in the
 * environment:
 *
 *   FAULT_CALL    memory, open, read, write or close: the calls that are counted until one fails
 *   FAULT_NUMBER  the number of the first call that fails, from 1; without it none does
 *   FAULT_KIND    refused, EIO, EINTR, nothing (a write that takes no byte) or one-byte (one byte is moved at the most)
 *   FAULT_GOES_ON all such calls from that number on fail, and not that one alone
 *   FAULT_THEN_OUTPUT  behind the first call that fails, each write to standard output fails too, with EIO
 *   FAULT_BETWEEN calls are counted only between a write of the line `begin` to descriptor 1 and one of the line `end`, and
 *                 neither of these is
 *   FAULT_REPORT  a file as long as `struct report`, in which the counts stand; it is mapped, so that they stand there
 *                 also where the program is killed
 *
 * Calls are counted from the one of `main` on, and until it returns. So what the loader and the C library ask for before
 * that is left out. */

#define _GNU_SOURCE
#include <dlfcn.h>
#include <errno.h>
#include <fcntl.h>
#include <stdarg.h>
#include <stddef.h>
#include <stdint.h>
#include <stdlib.h>
#include <string.h>
#include <sys/mman.h>
#include <sys/syscall.h>
#include <unistd.h>

enum call { MEMORY, OPEN, READ, WRITE, CLOSE, CALLS };

static const char *const call_names[CALLS] = {"memory", "open", "read", "write", "close"};

/* Where faults are counted that are not of the descriptors 0, 1 and 2. */
enum { ELSEWHERE = 3, PLACES };

struct report {
    uint64_t calls[CALLS];
    uint64_t faults[PLACES];
    uint64_t bytes_of_input; /* how many bytes were read from descriptor 0 */
    int64_t held;            /* blocks of memory that were given while calls were counted, less those that came back */
};

static struct report unnamed_report;
static struct report *report = &unnamed_report;

static struct {
    enum call call;
    uint64_t number; /* 0 where no call is to fail */
    int goes_on;
    int moves_one_byte;
    int error; /* 0 where nothing is moved and no error told */
    int is_made;
    int then_output;
} fault;

static int is_counting;

/* Whether calls are counted only between a write of `begin` and one of `end`. */
static int counts_between;

/* Counts a call, and says whether it is to fail. */
static int fails(enum call call, int descriptor)
{
    if (!is_counting)
        return 0;
    uint64_t number = ++report->calls[call];
    if (call != fault.call || fault.number == 0)
        return 0;
    if (fault.goes_on ? number < fault.number : number != fault.number)
        return 0;
    report->faults[descriptor >= 0 && descriptor < ELSEWHERE ? descriptor : ELSEWHERE]++;
    fault.is_made = 1;
    return 1;
}

/* Says whether a write is to fail since another call has. */
static int fails_behind(int descriptor)
{
    if (!fault.then_output || !fault.is_made || descriptor != STDOUT_FILENO)
        return 0;
    report->faults[descriptor]++;
    errno = EIO;
    return 1;
}

/* What a call answers that fails. */
static int failure(void)
{
    errno = fault.error;
    return fault.error ? -1 : 0;
}

/* Requests for memory. The C library has these functions under a second name too. */

void *__libc_malloc(size_t size);
void *__libc_calloc(size_t count, size_t size);
void *__libc_realloc(void *block, size_t size);
void *__libc_memalign(size_t alignment, size_t size);
void __libc_free(void *block);

static int is_refused(void)
{
    if (!fails(MEMORY, -1))
        return 0;
    errno = ENOMEM;
    return 1;
}

/* Counts a block that is given. */
static void *given(void *block)
{
    report->held += is_counting && block;
    return block;
}

void *malloc(size_t size)
{
    return is_refused() ? NULL : given(__libc_malloc(size));
}

void *calloc(size_t count, size_t size)
{
    return is_refused() ? NULL : given(__libc_calloc(count, size));
}

void *realloc(void *block, size_t size)
{
    if (is_refused())
        return NULL;
    return block ? __libc_realloc(block, size) : given(__libc_malloc(size));
}

void *memalign(size_t alignment, size_t size)
{
    return is_refused() ? NULL : given(__libc_memalign(alignment, size));
}

void *aligned_alloc(size_t alignment, size_t size)
{
    return is_refused() ? NULL : given(__libc_memalign(alignment, size));
}

void free(void *block)
{
    report->held -= is_counting && block;
    __libc_free(block);
}

int posix_memalign(void **block, size_t alignment, size_t size)
{
    void *found = is_refused() ? NULL : given(__libc_memalign(alignment, size));
    if (!found)
        return ENOMEM;
    *block = found;
    return 0;
}

/* Devices. */

int open(const char *path, int flags, ...)
{
    mode_t mode = 0;
    if ((flags & O_CREAT) || (flags & O_TMPFILE) == O_TMPFILE) {
        va_list rest;
        va_start(rest, flags);
        mode = va_arg(rest, mode_t);
        va_end(rest);
    }
    return fails(OPEN, -1) ? failure() : syscall(SYS_openat, AT_FDCWD, path, flags, mode);
}

ssize_t read(int descriptor, void *bytes, size_t size)
{
    if (fails(READ, descriptor)) {
        if (!fault.moves_one_byte)
            return failure();
        size = size > 0;
    }
    ssize_t moved = syscall(SYS_read, descriptor, bytes, size);
    if (descriptor == STDIN_FILENO && moved > 0)
        report->bytes_of_input += moved;
    return moved;
}

static int is_line(const char *line, int descriptor, const void *bytes, size_t size)
{
    return descriptor == STDOUT_FILENO && size == strlen(line) && memcmp(bytes, line, size) == 0;
}

ssize_t write(int descriptor, const void *bytes, size_t size)
{
    if (counts_between && is_line("begin\n", descriptor, bytes, size)) {
        is_counting = 1;
        return syscall(SYS_write, descriptor, bytes, size);
    }
    if (counts_between && is_line("end\n", descriptor, bytes, size))
        is_counting = 0;
    int is_behind = fails_behind(descriptor);
    if (fails(WRITE, descriptor)) {
        if (!fault.moves_one_byte)
            return failure();
        size = size > 0;
    } else if (is_behind) {
        return -1;
    }
    return syscall(SYS_write, descriptor, bytes, size);
}

/* The C library has it under this name too. */
ssize_t __write(int descriptor, const void *bytes, size_t size)
{
    return write(descriptor, bytes, size);
}

/* A close that fails has closed the descriptor all the same, as on Linux. */
int close(int descriptor)
{
    int is_failing = fails(CLOSE, descriptor);
    int closed = syscall(SYS_close, descriptor);
    return is_failing ? failure() : closed;
}

/* What is to be done. */

static void stop_at(const char *name)
{
    static const char said[] = " is wrong in the environment\n";
    (void)!syscall(SYS_write, STDERR_FILENO, name, strlen(name));
    (void)!syscall(SYS_write, STDERR_FILENO, said, sizeof said - 1);
    _exit(127);
}

static enum call call_named(const char *name)
{
    for (int call = 0; call < CALLS; call++)
        if (name && strcmp(name, call_names[call]) == 0)
            return call;
    stop_at("FAULT_CALL");
    return CALLS;
}

static void take_kind(const char *kind)
{
    if (kind && strcmp(kind, "one-byte") == 0)
        fault.moves_one_byte = 1;
    else if (kind && strcmp(kind, "EIO") == 0)
        fault.error = EIO;
    else if (kind && strcmp(kind, "EINTR") == 0)
        fault.error = EINTR;
    else if (!kind || (strcmp(kind, "refused") != 0 && strcmp(kind, "nothing") != 0))
        stop_at("FAULT_KIND");
}

static void take_fault(void)
{
    const char *number = getenv("FAULT_NUMBER");
    if (!number)
        return;
    fault.number = strtoull(number, NULL, 10);
    fault.call = call_named(getenv("FAULT_CALL"));
    fault.goes_on = getenv("FAULT_GOES_ON") != NULL;
    fault.then_output = getenv("FAULT_THEN_OUTPUT") != NULL;
    take_kind(getenv("FAULT_KIND"));
}

static void map_report(void)
{
    const char *path = getenv("FAULT_REPORT");
    if (!path)
        return;
    int descriptor = open(path, O_RDWR | O_CLOEXEC);
    void *found = mmap(NULL, sizeof *report, PROT_READ | PROT_WRITE, MAP_SHARED, descriptor, 0);
    close(descriptor);
    if (found == MAP_FAILED)
        stop_at("FAULT_REPORT");
    report = found;
}

/* The beginning of the program. */

typedef int main_function(int count, char **words, char **environment);

static main_function *program_main;

static int counted_main(int count, char **words, char **environment)
{
    is_counting = !counts_between;
    int status = program_main(count, words, environment);
    is_counting = 0;
    return status;
}

typedef int start_function(main_function *main, int count, char **words, void (*begin)(void), void (*end)(void),
                           void (*loader_end)(void), void *stack_end);

/* The C library's function that calls `main`. */
start_function __libc_start_main;

int __libc_start_main(main_function *main, int count, char **words, void (*begin)(void), void (*end)(void),
                      void (*loader_end)(void), void *stack_end)
{
    start_function *start = (start_function *)dlsym(RTLD_NEXT, "__libc_start_main");
    program_main = main;
    counts_between = getenv("FAULT_BETWEEN") != NULL;
    take_fault();
    map_report();
    return start(counted_main, count, words, begin, end, loader_end, stack_end);
}
