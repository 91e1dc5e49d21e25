/* Refuses allocations of a program that it is preloaded into: with REFUSE=N the Nth call of malloc or realloc, counted from 1, and with
 * REFUSE=N.. each call from the Nth on. At the end it writes how many calls there were to the file descriptor COUNT_TO. */
#define _GNU_SOURCE
#include <dlfcn.h>
#include <stdio.h>
#include <stdlib.h>
#include <string.h>
#include <sys/syscall.h>
#include <unistd.h>

static unsigned long calls;

/* Counts a call, and says whether it is to be refused. */
static int is_refused(void) {
    static unsigned long first, last;
    if (calls++ == 0) {
        const char *text = getenv("REFUSE");
        first = text ? strtoul(text, NULL, 10) : 0;
        last = text && strstr(text, "..") ? -1ul : first;
    }
    return first <= calls && calls <= last;
}

void *malloc(size_t size) {
    static void *(*next)(size_t);
    if (!next)
        next = dlsym(RTLD_NEXT, "malloc");
    return is_refused() ? NULL : next(size);
}

void *realloc(void *old, size_t size) {
    static void *(*next)(void *, size_t);
    if (!next)
        next = dlsym(RTLD_NEXT, "realloc");
    return is_refused() ? NULL : next(old, size);
}

/* Tells how many calls there were, once. */
__attribute__((destructor)) static void tell(void) {
    static int told;
    const char *to = getenv("COUNT_TO");
    char text[32];
    if (to && !told++ && write(atoi(to), text, snprintf(text, sizeof text, "%lu", calls)) < 0)
        syscall(SYS_exit_group, 99);
}

/* A program may end so, without its destructors. */
void _exit(int status) {
    tell();
    syscall(SYS_exit_group, status);
    __builtin_unreachable();
}
