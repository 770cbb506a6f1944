/* check memory loads this before the C library of a program (LD_PRELOAD). It counts the octets that the program holds, as it asks for
   them and gives them back, and writes the most that it ever held into the file that HELD names, when the program ends. */
#define _GNU_SOURCE
#include <dlfcn.h>
#include <fcntl.h>
#include <malloc.h>
#include <stdio.h>
#include <stdlib.h>
#include <unistd.h>

static size_t held, most;

static void *counted(void *made)
{
    held += malloc_usable_size(made);
    if (held > most)
        most = held;
    return made;
}

void *malloc(size_t size)
{
    static void *(*next)(size_t);
    if (next == NULL)
        next = (void *(*)(size_t))dlsym(RTLD_NEXT, "malloc");
    return counted(next(size));
}

void *realloc(void *old, size_t size)
{
    static void *(*next)(void *, size_t);
    size_t before = malloc_usable_size(old);
    void *grown;
    if (next == NULL)
        next = (void *(*)(void *, size_t))dlsym(RTLD_NEXT, "realloc");
    grown = next(old, size);
    if (grown != NULL)
        held -= before;
    return counted(grown);
}

void free(void *old)
{
    static void (*next)(void *);
    if (next == NULL)
        next = (void (*)(void *))dlsym(RTLD_NEXT, "free");
    held -= malloc_usable_size(old);
    next(old);
}

__attribute__((destructor)) static void tell(void)
{
    int file = open(getenv("HELD"), O_CREAT | O_WRONLY | O_TRUNC, 0600);
    dprintf(file, "%zu\n", most);
    close(file);
}
