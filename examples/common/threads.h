/* Threads by clone(2), and futex(2), for the C examples. */
#pragma once
#include "calls.h"
enum { CALL_EXIT = 93, CALL_EXIT_GROUP = 94, CALL_FUTEX = 98, CALL_SCHED_YIELD = 124, CALL_CLONE = 220 };

enum { FUTEX_WAIT = 0, FUTEX_WAKE = 1, FUTEX_PRIVATE = 128 };
#ifndef CLONE_VM /* (the header of a C library may have defined them) */
enum {
    CLONE_VM = 0x100,
    CLONE_FS = 0x200,
    CLONE_FILES = 0x400,
    CLONE_SIGHAND = 0x800,
    CLONE_THREAD = 0x10000,
    CLONE_SYSVSEM = 0x40000,
    CLONE_PARENT_SETTID = 0x100000,
    CLONE_CHILD_CLEARTID = 0x200000
};
#endif
enum { THREAD_FLAGS = CLONE_VM | CLONE_FS | CLONE_FILES | CLONE_SIGHAND | CLONE_THREAD | CLONE_SYSVSEM
                      | CLONE_PARENT_SETTID | CLONE_CHILD_CLEARTID };
/* A thread: its number, which becomes 0 when it has ended, and its stack. */
struct thread {
    uint32_t tid;
    _Alignas(16) char stack[1024];
};

/* A call of up to four arguments: its answer, or a negative error number. */
static inline long call(long number, long first, long second, long third, long fourth) {
    register long a0 asm("a0") = first;
    register long a1 asm("a1") = second;
    register long a2 asm("a2") = third;
    register long a3 asm("a3") = fourth;
    register long a7 asm("a7") = number;
    asm volatile("ecall" : "+r"(a0) : "r"(a1), "r"(a2), "r"(a3), "r"(a7) : "memory");
    return a0;
}

/* Sleeps until the word is woken, where it still has this value. */
static inline void futex_wait(uint32_t *word, uint32_t value, long flags) {
    call(CALL_FUTEX, (long)word, FUTEX_WAIT | flags, value, 0);
}

/* Wakes one thread that sleeps at the word. */
static inline void futex_wake(uint32_t *word, long flags) {
    call(CALL_FUTEX, (long)word, FUTEX_WAKE | flags, 1, 0);
}

/* Starts a thread that calls run(argument) on its own stack and ends. */
static inline void start_thread(struct thread *thread, void (*run)(void *), void *argument) {
    register long a0 asm("a0") = THREAD_FLAGS;
    register char *a1 asm("a1") = thread->stack + sizeof thread->stack;
    register uint32_t *a2 asm("a2") = &thread->tid; /* gets the number before either goes on .. */
    register long a3 asm("a3") = 0;
    register uint32_t *a4 asm("a4") = &thread->tid; /* .. and 0 when the thread has ended */
    register long a7 asm("a7") = CALL_CLONE;
    asm volatile("ecall\n"
                 "   bnez a0, 1f\n" /* the parent goes on behind */
                 "   mv   a0, %[argument]\n"
                 "   jalr %[run]\n"
                 "   li   a0, 0\n"
                 "   li   a7, %[exit]\n"
                 "   ecall\n"
                 "1:"
                 : "+r"(a0)
                 : "r"(a1), "r"(a2), "r"(a3), "r"(a4), "r"(a7),
                   [argument] "r"(argument), [run] "r"(run), [exit] "i"(CALL_EXIT)
                 : "memory");
}

/* Waits until the thread has ended: the kernel clears its number, and wakes who sleeps there. */
static inline void join_thread(struct thread *thread) {
    uint32_t tid;
    while ((tid = __atomic_load_n(&thread->tid, __ATOMIC_ACQUIRE)) != 0)
        futex_wait(&thread->tid, tid, 0);
}
