/* Counts the calls that ask for memory, and refuses one of them, or all from one on: REFUSE=N, REFUSE_FROM=N, from 0.
   At the end of the process the count is written to the file that REFUSE_COUNT names. */
#define _GNU_SOURCE
#include <dlfcn.h>
#include <fcntl.h>
#include <stdio.h>
#include <stdlib.h>
#include <unistd.h>

static void *(*next_malloc)(size_t);
static void *(*next_realloc)(void *, size_t);
static long count, one = -1, first = -1;

static long number(const char *name)
{
    const char *text = getenv(name);
    return text ? atol(text) : -1;
}

__attribute__((constructor)) static void begin(void)
{
    next_malloc = dlsym(RTLD_NEXT, "malloc");
    next_realloc = dlsym(RTLD_NEXT, "realloc");
    one = number("REFUSE");
    first = number("REFUSE_FROM");
    count = 0;
}

static int is_refused(void)
{
    long place = count++;
    return place == one || (first >= 0 && place >= first);
}

void *malloc(size_t size)
{
    if (!next_malloc)
        next_malloc = dlsym(RTLD_NEXT, "malloc");
    return is_refused() ? NULL : next_malloc(size);
}

void *realloc(void *held, size_t size)
{
    if (!next_realloc)
        next_realloc = dlsym(RTLD_NEXT, "realloc");
    return is_refused() ? NULL : next_realloc(held, size);
}

__attribute__((destructor)) static void end(void)
{
    const char *path = getenv("REFUSE_COUNT");
    char text[32];
    int file, length;
    if (!path)
        return;
    file = open(path, O_WRONLY | O_CREAT | O_TRUNC, 0600);
    length = snprintf(text, sizeof text, "%ld", count);
    if (file < 0 || write(file, text, length) != length)
        _exit(99);
    close(file);
}
