#pragma once /* Signals, for the C examples: the calls, an action, and the frame that a handler finds. */
#include "threads.h"
enum { CALL_TGKILL = 131, CALL_RT_SIGACTION = 134, CALL_RT_SIGPROCMASK = 135 };

enum { SIGUSR1 = 10, SIGSEGV = 11 };

enum { SIG_BLOCK = 0, SIG_UNBLOCK = 1 };

/* A set of signals has 64 bits; bit s - 1 is signal s. */
enum { SET_BYTES = 8 };

/* Where a thread was interrupted: its pc and its registers x1 to x31, the signals that it masked, and 0. It goes on so when the handler
 * returns; a handler may change it. (With SA_SIGINFO it is the frame of Linux, with a ucontext inside.) */
struct frame {
    uint64_t pc;
    uint64_t x[31]; /* x[0] is x1, and so on */
    uint64_t mask;
    uint64_t zero;
};

/* What is done when a signal comes (asm-generic/signal.h): the handler, flags, and the signals that are masked while it runs. */
struct action {
    void (*handler)(int signal, void *none, struct frame *frame);
    uint64_t flags;
    uint64_t mask;
};

/* Sets the action of a signal: 0, or a negative error number. */
static inline long set_handler(int signal, void (*handler)(int, void *, struct frame *)) {
    struct action action = {handler, 0, 0};
    return call(CALL_RT_SIGACTION, signal, (long)&action, 0, SET_BYTES);
}

/* Masks a signal in the current thread (SIG_BLOCK), or doesn't any more (SIG_UNBLOCK): 0, or a negative error number. A new thread has
 * the mask of the one that starts it. */
static inline long mask_signal(int how, int signal) {
    uint64_t set = 1ul << (signal - 1);
    return call(CALL_RT_SIGPROCMASK, how, (long)&set, 0, SET_BYTES);
}

/* Sends a signal to a thread of this process, which has number 1: 0, or a negative error number. */
static inline long send_signal(uint32_t tid, int signal) {
    return call(CALL_TGKILL, 1, tid, signal, 0);
}
