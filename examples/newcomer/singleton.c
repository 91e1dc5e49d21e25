/* A register of events that is made when it is needed first, by whoever needs it: a thread, another one, or the handler of SIGUSR1 of
 * one of them. Who finds none makes one and publishes it by compare and exchange; who was too late drops its own and takes the one that
 * is there. So a handler never waits for the thread that it has interrupted. Built with -DWRONG it is looked at first, and then stored.
 * Where the handler or the other thread makes one meanwhile, that is written over, with the events that it has. */
#include "check.h"
#include "signals.h"
#include "threads.h"

enum { OWN_EVENTS = 2, THREADS = 2, SIGNALS = 1, MADE = THREADS + SIGNALS, EVENTS = THREADS * OWN_EVENTS + SIGNALS };

/* A register: whether it is ready, and how many events it has. */
struct events {
    uint32_t is_ready;
    uint32_t count;
};

static struct events pool[MADE], *events;
static uint32_t made, handled;
static struct thread threads[THREADS];

/* Makes a register of its own. */
static struct events *make(void) {
    uint32_t number = __atomic_fetch_add(&made, 1, __ATOMIC_RELAXED);
    check(number < MADE);
    struct events *own = &pool[number];
    __atomic_store_n(&own->count, 0, __ATOMIC_RELAXED);
    __atomic_store_n(&own->is_ready, 1, __ATOMIC_RELAXED);
    return own;
}

/* The register. */
static struct events *__attribute__((noipa)) get_events(void) {
    struct events *there = __atomic_load_n(&events, __ATOMIC_ACQUIRE);
    if (there != NULL)
        return there;
    struct events *own = make();
#ifdef WRONG
    __atomic_store_n(&events, own, __ATOMIC_RELEASE);
    return own;
#else
    int is_first = __atomic_compare_exchange_n(&events, &there, own, 0, __ATOMIC_ACQ_REL, __ATOMIC_ACQUIRE);
    return is_first ? own : there;
#endif
}

/* Registers an event. */
static void add_event(void) {
    struct events *there = get_events();
    check(__atomic_load_n(&there->is_ready, __ATOMIC_RELAXED), ==, 1u);
    __atomic_fetch_add(&there->count, 1, __ATOMIC_RELAXED);
}

/* The handler of SIGUSR1, which is masked while it runs. */
static void on_signal(int signal, void *none, struct frame *frame) {
    (void)signal, (void)none, (void)frame;
    add_event();
    __atomic_fetch_add(&handled, 1, __ATOMIC_RELEASE);
    futex_wake(&handled, 0);
}

static void add_often(void *unused) {
    (void)unused;
    for (int at = 0; at < OWN_EVENTS; at++)
        add_event();
}

/* The same in a thread that the signals come to, each of which breaks its wait. */
static void add_and_wait(void *unused) {
    uint32_t before;
    mask_signal(SIG_UNBLOCK, SIGUSR1);
    add_often(unused);
    while ((before = __atomic_load_n(&handled, __ATOMIC_ACQUIRE)) < SIGNALS)
        futex_wait(&handled, before, 0);
}

int main(void) {
    check(set_handler(SIGUSR1, on_signal) == 0 && mask_signal(SIG_BLOCK, SIGUSR1) == 0);
    start_thread(&threads[0], add_and_wait, NULL);
    uint32_t tid = threads[0].tid;
    check(send_signal(tid, SIGUSR1) == 0);
    start_thread(&threads[1], add_often, NULL);
    for (int at = 0; at < THREADS; at++)
        join_thread(&threads[at]);
    check(get_events()->count, ==, (uint32_t)EVENTS);
    write_line("events ", EVENTS);
    return 0;
}
