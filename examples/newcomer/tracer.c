/* A tracer: a thread and its handler of SIGUSR1 write events into one buffer, and another thread reads them meanwhile. Each event gets a slot
 * of its own by an atomic addition, so that a handler which comes between takes the next one. An event is there when its slot isn't 0, and
 * the reader waits for that. Built with -DWRONG who writes an event says that all slots up to its own are there. Where the handler comes
 * between the thread's addition and its event, it says so of a slot that is still empty, and the reader reads that. */
#include <stdatomic.h>

#include "check.h"
#include "signals.h"
#include "threads.h"

enum { OWN_EVENTS = 3, SIGNALS = 2, EVENTS = OWN_EVENTS + SIGNALS };

enum { OF_THREAD = 1, OF_HANDLER = 100 };

static struct {
    atomic_uint reserved;      /* how many slots have been given out */
    atomic_uint there;         /* how many of the first ones are there (WRONG) */
    atomic_uint slots[EVENTS]; /* what has happened; 0 where nothing is there yet */
} trace;

static struct thread traced;
static atomic_uint handled; /* a futex */

/* Writes an event. */
static void __attribute__((noipa)) emit(uint32_t event) {
    uint32_t slot = atomic_fetch_add_explicit(&trace.reserved, 1, memory_order_relaxed);
    check(slot < EVENTS);
    atomic_store_explicit(&trace.slots[slot], event, memory_order_release);
#ifdef WRONG
    atomic_store_explicit(&trace.there, slot + 1, memory_order_release);
#endif
}

/* Waits until a slot is there, and reads it. */
static uint32_t __attribute__((noipa)) read_slot(uint32_t slot) {
#ifdef WRONG
    while (atomic_load_explicit(&trace.there, memory_order_acquire) <= slot)
        call(CALL_SCHED_YIELD, 0, 0, 0, 0);
    return atomic_load_explicit(&trace.slots[slot], memory_order_relaxed);
#else
    uint32_t event;
    while ((event = atomic_load_explicit(&trace.slots[slot], memory_order_acquire)) == 0)
        call(CALL_SCHED_YIELD, 0, 0, 0, 0);
    return event;
#endif
}

/* The handler of SIGUSR1, which is masked while it runs. */
static void on_signal(int signal, void *none, struct frame *frame) {
    (void)signal, (void)none, (void)frame;
    emit(OF_HANDLER);
    atomic_fetch_add_explicit(&handled, 1, memory_order_release);
    futex_wake((uint32_t *)&handled, 0);
}

/* Writes the thread's events, and waits until the signals have come, each of which breaks the wait. */
static void run_traced(void *unused) {
    (void)unused;
    uint32_t before;
    mask_signal(SIG_UNBLOCK, SIGUSR1);
    for (uint32_t at = 0; at < OWN_EVENTS; at++)
        emit(OF_THREAD);
    while ((before = atomic_load_explicit(&handled, memory_order_acquire)) < SIGNALS)
        futex_wait((uint32_t *)&handled, before, 0);
}

/* Sends a signal, and waits until its handler has run. */
static void send_one(uint32_t tid) {
    uint32_t before = atomic_load_explicit(&handled, memory_order_acquire);
    check(send_signal(tid, SIGUSR1) == 0);
    while (atomic_load_explicit(&handled, memory_order_acquire) == before)
        futex_wait((uint32_t *)&handled, before, 0);
}

int main(void) {
    uint32_t sum = 0;
    check(set_handler(SIGUSR1, on_signal) == 0 && mask_signal(SIG_BLOCK, SIGUSR1) == 0);
    start_thread(&traced, run_traced, NULL);
    uint32_t tid = traced.tid;
    for (int at = 0; at < SIGNALS; at++)
        send_one(tid);
    for (uint32_t slot = 0; slot < EVENTS; slot++) {
        uint32_t event = read_slot(slot);
        check(event, !=, 0u);
        sum += event;
    }
    join_thread(&traced);
    check(sum, ==, (uint32_t)(OWN_EVENTS * OF_THREAD + SIGNALS * OF_HANDLER));
    write_line("events ", EVENTS);
    return 0;
}
