/* Threads whose stack has a chosen size, with a page below it that may not be touched: a stack that is too small ends the program
 * by SIGSEGV, and doesn't write over its neighbour. Each thread has room for variables of its own (_Thread_local, and errno of a
 * C library), which begin as zeros. */
#pragma once
#include "threads.h"

enum { CALL_MUNMAP = 215, CALL_MMAP = 222, CALL_MPROTECT = 226, CLONE_SETTLS = 0x80000 };

enum { PROT_NONE = 0, PROT_READ = 1, PROT_WRITE = 2, MAP_PRIVATE = 0x02, MAP_ANONYMOUS = 0x20 };

/* How many bytes the variables of a thread may have, all together. Initial values aren't copied there. */
enum { PAGE = 4096, OWN_VARIABLES = 1024 };

/* A thread: its number, which becomes 0 when it has ended; what was mapped for it; and what it calls. */
struct worker {
    uint32_t tid;
    char *room;
    size_t length;
    void (*run)(void *);
    void *argument;
};

/* New pages that may be read and written, as many as so many bytes need; a negative error number where there are none. */
static inline long map_pages(size_t length) {
    register long a0 asm("a0") = 0;
    register size_t a1 asm("a1") = length;
    register long a2 asm("a2") = PROT_READ | PROT_WRITE;
    register long a3 asm("a3") = MAP_PRIVATE | MAP_ANONYMOUS;
    register long a4 asm("a4") = -1;
    register long a5 asm("a5") = 0;
    register long a7 asm("a7") = CALL_MMAP;
    asm volatile("ecall" : "+r"(a0) : "r"(a1), "r"(a2), "r"(a3), "r"(a4), "r"(a5), "r"(a7) : "memory");
    return a0;
}

/* What a new thread does: it calls what it was started for, and ends. */
static __attribute__((used)) _Noreturn void run_worker(struct worker *worker) {
    worker->run(worker->argument);
    for (;;)
        call(CALL_EXIT, 0, 0, 0, 0);
}

/* Makes the thread: its stack ends below its variables, to which tp points. The answer of clone(2). */
static inline long clone_worker(struct worker *worker) {
    char *variables = worker->room + worker->length - OWN_VARIABLES;
    register long a0 asm("a0") = THREAD_FLAGS | CLONE_SETTLS;
    register char *a1 asm("a1") = variables;
    register uint32_t *a2 asm("a2") = &worker->tid; /* gets the number before either goes on .. */
    register char *a3 asm("a3") = variables;
    register uint32_t *a4 asm("a4") = &worker->tid; /* .. and 0 when the thread has ended */
    register long a7 asm("a7") = CALL_CLONE;
    asm volatile("ecall\n"
                 "   bnez a0, 1f\n" /* the parent goes on behind */
                 "   mv   a0, %[worker]\n"
                 "   jalr %[run]\n"
                 "1:"
                 : "+r"(a0)
                 : "r"(a1), "r"(a2), "r"(a3), "r"(a4), "r"(a7), [worker] "r"(worker), [run] "r"(run_worker)
                 : "memory", "ra");
    return a0;
}

/* Starts a thread that calls run(argument) on a stack of so many bytes, in whole pages: 0, or a negative error number. */
static inline long start_worker(struct worker *worker, void (*run)(void *), void *argument, size_t stack) {
    size_t length = PAGE + (stack + OWN_VARIABLES + PAGE - 1) / PAGE * PAGE;
    long room = map_pages(length);
    if (room < 0)
        return room;
    *worker = (struct worker){0, (char *)room, length, run, argument};
    call(CALL_MPROTECT, room, PAGE, PROT_NONE, 0);
    long tid = clone_worker(worker);
    return tid < 0 ? tid : 0;
}

/* Waits until the thread has ended, and gives its stack back. */
static inline void join_worker(struct worker *worker) {
    uint32_t tid;
    while ((tid = __atomic_load_n(&worker->tid, __ATOMIC_ACQUIRE)) != 0)
        futex_wait(&worker->tid, tid, 0);
    call(CALL_MUNMAP, (long)worker->room, worker->length, 0, 0);
}
