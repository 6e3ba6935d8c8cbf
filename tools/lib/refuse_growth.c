/* Preloaded before a program: counts its allocations, and refuses those whose numbers, counted from 1, stand in the
 * lines of EACH_CHILD (tools/lib/children.h), each in a child. At the end it writes how many allocations there were
 * into the file that COUNT_GROWTH names. */
#define _GNU_SOURCE
#include "children.h"
#include <dlfcn.h>

static long allocations;
static int is_set_out;
/* The number of the next allocation that is refused, or 0. */
static long refused_number;

static void look_at_the_next(void)
{
    const char *line = line_of_a_child();
    refused_number = line ? atol(line) : 0;
}

static int is_refused(void)
{
    if (!is_set_out) {
        is_set_out = 1;
        set_out_children();
        look_at_the_next();
    }
    allocations++;
    if (is_child || allocations != refused_number)
        return 0;
    if (is_in_a_child())
        return 1;
    look_at_the_next();
    return 0;
}

void *malloc(size_t size)
{
    static void *(*next)(size_t);
    if (!next)
        next = dlsym(RTLD_NEXT, "malloc");
    if (is_refused()) {
        errno = ENOMEM;
        return NULL;
    }
    return next(size);
}

void *realloc(void *old, size_t size)
{
    static void *(*next)(void *, size_t);
    if (!next)
        next = dlsym(RTLD_NEXT, "realloc");
    if (is_refused()) {
        errno = ENOMEM;
        return NULL;
    }
    return next(old, size);
}

__attribute__((destructor)) static void report(void)
{
    const char *path = getenv("COUNT_GROWTH");
    long count = allocations;
    FILE *file;
    if (!is_child && path && (file = fopen(path, "w"))) {
        fprintf(file, "%ld\n", count);
        fclose(file);
    }
}
