/* The system below lrcheck in a browser: a heap in the memory of the module, one file that is read, which is the grammar, one
 * that is written, which is the page, and standard output and standard error. The rest of the system is not there. Arguments,
 * the grammar and what is written go through the four functions that host.js supplies. */

typedef unsigned long size;
typedef long length;
typedef unsigned char byte;

#define HOST(name) __attribute__((import_module("host"), import_name(name)))

HOST("read") length host_read(void *to, size most);
HOST("write") void host_write(int file, const void *from, size count);
HOST("argument") length host_argument(size number, void *to, size most);
HOST("arguments") size host_arguments(void);

enum { PAGE = 3, GRAMMAR = 4 };
enum { O_CREAT = 64 };
enum { ENOENT = 2 };

/* The heap. A block has so many bytes as a power of two, of which the first 16 keep which one; blocks that were let go of stand in
 * a list for each power. */

enum { HEAD = 16, SMALLEST = 5, LARGEST = 32, PAGE_BITS = 16, LEAST_GROWTH = 256 };

extern byte __heap_base;
static size begin, end;
static void *unused[LARGEST + 1];

static int power_for(size count)
{
    int power = SMALLEST;

    while (power <= LARGEST && ((size)1 << power) - HEAD < count)
        power++;
    return power;
}

static int grow(size count)
{
    size pages = (count >> PAGE_BITS) + 1;

    if (pages < LEAST_GROWTH)
        pages = LEAST_GROWTH;
    if (__builtin_wasm_memory_grow(0, pages) == (size)-1)
        return 0;
    end += pages << PAGE_BITS;
    return 1;
}

static void *allocated(size count)
{
    int power = power_for(count);
    size block = (size)1 << power;
    byte *place;

    if (power > LARGEST)
        return 0;
    if (unused[power]) {
        void **first = unused[power];
        unused[power] = *first;
        return first;
    }
    if (!end) {
        begin = ((size)&__heap_base + HEAD - 1) & ~(size)(HEAD - 1);
        end = __builtin_wasm_memory_size(0) << PAGE_BITS;
    }
    if (end - begin < block && !grow(block))
        return 0;
    place = (byte *)begin + HEAD;
    begin += block;
    *(size *)(place - HEAD) = (size)power;
    return place;
}

static size power_of(void *block)
{
    return *(size *)((byte *)block - HEAD);
}

struct given {
    size is_met;
    void *block;
};

static byte none[16] __attribute__((aligned(16)));

static struct given given(void *block)
{
    struct given it = {block != 0, block ? block : none};

    return it;
}

struct given rattle_alloc(size count, size alignment)
{
    return given(allocated(count ? count : alignment));
}

void rattle_dealloc(void *block)
{
    *(void **)block = unused[power_of(block)];
    unused[power_of(block)] = block;
}

struct given rattle_realloc(void *block, size old_count, size count, size alignment)
{
    size room = ((size)1 << power_of(block)) - HEAD;
    void *larger;

    (void)old_count;
    if (count <= room)
        return given(block);
    larger = allocated(count ? count : alignment);
    if (larger) {
        __builtin_memcpy(larger, block, room);
        rattle_dealloc(block);
    }
    return given(larger);
}

/* Bytes, by instructions of the module. */

void *memcpy(void *to, const void *from, size count)
{
    __builtin_memmove(to, from, count);
    return to;
}

void *memmove(void *to, const void *from, size count)
{
    __builtin_memmove(to, from, count);
    return to;
}

void *memset(void *to, int value, size count)
{
    __builtin_memset(to, value, count);
    return to;
}

/* The program's words. */

size rattle_arg_count(void)
{
    return host_arguments();
}

length rattle_arg(size number, byte *place, size most)
{
    return host_argument(number, place, most);
}

length rattle_env(const byte *name, byte *place, size most)
{
    (void)name, (void)place, (void)most;
    return -1;
}

length rattle_env_at(size number, byte *place, size most)
{
    (void)number, (void)place, (void)most;
    return -1;
}

/* Files. */

static int error;

int rattle_errno(void)
{
    return error;
}

void rattle_set_errno(int number)
{
    error = number;
}

static int missing(void)
{
    error = ENOENT;
    return -1;
}

int open(const char *path, int flags, ...)
{
    (void)path;
    return flags & O_CREAT ? PAGE : GRAMMAR;
}

length read(int file, void *to, size most)
{
    return file == GRAMMAR ? host_read(to, most) : 0;
}

length write(int file, const void *from, size count)
{
    host_write(file, from, count);
    return (length)count;
}

/* The name under which the C library has the same call for itself, and which a proved program takes. */
length __write(int file, const void *from, size count)
{
    return write(file, from, count);
}

int close(int file)
{
    (void)file;
    return 0;
}

int fsync(int file)
{
    (void)file;
    return 0;
}

int rename(const char *from, const char *to)
{
    (void)from, (void)to;
    return 0;
}

int statx(int folder, const char *path, int flags, unsigned mask, void *known)
{
    (void)folder, (void)path, (void)flags, (void)mask, (void)known;
    return missing();
}

char *realpath(const char *path, char *to)
{
    (void)path, (void)to;
    missing();
    return 0;
}

int unlink(const char *path)
{
    (void)path;
    return missing();
}

int isatty(int file)
{
    (void)file;
    return 0;
}

int clock_gettime(int clock, long *now)
{
    (void)clock;
    now[0] = now[1] = 0;
    return 0;
}

int __xpg_strerror_r(int number, char *to, size most)
{
    (void)number;
    if (most)
        *to = 0;
    return 0;
}

void *__sysv_signal(int number, void *handler)
{
    (void)number, (void)handler;
    return 0;
}

/* Arithmetic of 128 bits, as the compiler calls it. */

typedef unsigned __int128 wide;

static wide joined(size high, size low)
{
    return (wide)high << 64 | low;
}

wide __multi3(wide one, wide other)
{
    size a = (size)one, b = (size)other, half = 0xffffffff;
    size low = (a & half) * (b & half);
    size middle = (a >> 32) * (b & half) + (low >> 32);
    size rest = (a & half) * (b >> 32) + (middle & half);
    size high = (a >> 32) * (b >> 32) + (middle >> 32) + (rest >> 32);

    return joined(high + a * (size)(other >> 64) + (size)(one >> 64) * b, rest << 32 | (low & half));
}

wide __ashlti3(wide number, int count)
{
    size low = (size)number, high = (size)(number >> 64);

    if (count == 0)
        return number;
    if (count >= 64)
        return joined(low << (count - 64), 0);
    return joined(high << count | low >> (64 - count), low << count);
}

wide __lshrti3(wide number, int count)
{
    size low = (size)number, high = (size)(number >> 64);

    if (count == 0)
        return number;
    if (count >= 64)
        return joined(0, high >> (count - 64));
    return joined(high >> count, low >> count | high << (64 - count));
}
