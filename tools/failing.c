/* check failures loads this before the C library of a program (LD_PRELOAD). It reads these environment variables:
   FAIL_ALLOCATION=N, FAIL_READ=N, FAIL_WRITE=N: the Nth allocation, the Nth read of standard input or the Nth write of
   standard output fails, that one alone. NOTHING=1: that write takes no octet instead. INTERRUPTED=1: that read or write is
   interrupted instead.
   AT_MOST=N: each such read and write moves N octets at most.
   TOLD=FILE: the file is made where a call fails, and says how many reads had begun before. At each later read or write a
   line `again` is put behind that. */
#define _GNU_SOURCE
#include <dlfcn.h>
#include <errno.h>
#include <fcntl.h>
#include <stddef.h>
#include <stdio.h>
#include <stdlib.h>
#include <string.h>
#include <sys/mman.h>
#include <unistd.h>

static long allocations, reads, writes;
static int failed;

static long number(const char *name)
{
    const char *word = getenv(name);
    return word == NULL ? 0 : atol(word);
}

static void tell(const char *words, long count)
{
    int file = open(getenv("TOLD"), O_CREAT | O_WRONLY | O_APPEND, 0600);
    dprintf(file, words, count);
    close(file);
}

/* Whether this call, of which there were `calls` before, is the one that has to fail. */
static int fails(const char *name, long *calls)
{
    if (++*calls != number(name))
        return 0;
    failed = 1;
    tell("after %ld reads\n", reads);
    return 1;
}

/* What a read or a write gives that fails. */
static ssize_t failure(void)
{
    if (number("NOTHING"))
        return 0;
    errno = number("INTERRUPTED") ? EINTR : EIO;
    return -1;
}

static size_t moved(size_t size)
{
    size_t most = (size_t)number("AT_MOST");
    return most > 0 && most < size ? most : size;
}

/* What gives memory: the C library, or a program's own allocator. */
static void *(*next_malloc)(size_t);
static void *(*next_realloc)(void *, size_t);

static void *failing_malloc(size_t size)
{
    if (next_malloc == NULL)
        next_malloc = (void *(*)(size_t))dlsym(RTLD_NEXT, "malloc");
    return fails("FAIL_ALLOCATION", &allocations) ? NULL : next_malloc(size);
}

static void *failing_realloc(void *old, size_t size)
{
    if (next_realloc == NULL)
        next_realloc = (void *(*)(void *, size_t))dlsym(RTLD_NEXT, "realloc");
    return fails("FAIL_ALLOCATION", &allocations) ? NULL : next_realloc(old, size);
}

void *malloc(size_t size)
{
    return failing_malloc(size);
}

void *realloc(void *old, size_t size)
{
    return failing_realloc(old, size);
}

#ifdef __x86_64__
enum { PAGE = 4096, NEAR = 1 << 28, JUMP = 0xE9, JUMP_SIZE = 5 };

/* Turns the jump of an entry to a place near it, from where control goes to a function of this file. Gives where it led. */
static void *turned(unsigned char *entry, unsigned char *place, void *to)
{
    unsigned char far[] = {0x48, 0xB8, 0, 0, 0, 0, 0, 0, 0, 0, 0xFF, 0xE0}; /* movabs to, %rax; jmp *%rax */
    unsigned char *page = (unsigned char *)((size_t)entry & -(size_t)PAGE);
    int led, leads = (int)(place - (entry + JUMP_SIZE));
    memcpy(&led, entry + 1, sizeof led);
    memcpy(far + 2, &to, sizeof to);
    memcpy(place, far, sizeof far);
    if (mprotect(page, 2 * PAGE, PROT_READ | PROT_WRITE | PROT_EXEC) == 0)
        memcpy(entry + 1, &leads, sizeof leads);
    mprotect(page, 2 * PAGE, PROT_READ | PROT_EXEC);
    return entry + JUMP_SIZE + led;
}

/* A program that was built without proofs has an allocator of its own, which is found before this file. Its entries are jumps. */
__attribute__((constructor)) static void turn_own_allocator(void)
{
    unsigned char *entry = dlsym(RTLD_DEFAULT, "malloc"), *again = dlsym(RTLD_DEFAULT, "realloc");
    unsigned char *place = entry - (size_t)entry % PAGE + NEAR;
    if (entry[0] != JUMP || again[0] != JUMP || number("FAIL_ALLOCATION") == 0)
        return;
    place = mmap(place, PAGE, PROT_READ | PROT_WRITE | PROT_EXEC, MAP_PRIVATE | MAP_ANONYMOUS | MAP_FIXED_NOREPLACE, -1, 0);
    if (place == MAP_FAILED)
        return;
    next_malloc = (void *(*)(size_t))turned(entry, place, (void *)failing_malloc);
    next_realloc = (void *(*)(void *, size_t))turned(again, place + PAGE / 2, (void *)failing_realloc);
    allocations = 0;
}
#endif

ssize_t read(int file, void *octets, size_t size)
{
    static ssize_t (*next)(int, void *, size_t);
    if (next == NULL)
        next = (ssize_t(*)(int, void *, size_t))dlsym(RTLD_NEXT, "read");
    if (file != 0)
        return next(file, octets, size);
    if (failed)
        tell("again\n", 0);
    return fails("FAIL_READ", &reads) ? failure() : next(file, octets, moved(size));
}

ssize_t write(int file, const void *octets, size_t size)
{
    static ssize_t (*next)(int, const void *, size_t);
    if (next == NULL)
        next = (ssize_t(*)(int, const void *, size_t))dlsym(RTLD_NEXT, "write");
    if (file != 1)
        return next(file, octets, size);
    if (failed)
        tell("again\n", 0);
    return fails("FAIL_WRITE", &writes) ? failure() : next(file, octets, moved(size));
}
