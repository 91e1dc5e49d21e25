/* A condition variable that is right, whose waiters are counted: threads wait at a gate until it is open, and who opens it wakes all of
 * them. A signal is a number in a futex that grows; where nobody waits it is left out. The count and the gate change under the mutex
 * alone, so neither needs an atomic. `is_open` is a plain static: a compiler that takes it that `wait_at` doesn't change it (GCC without
 * -fno-ipa-reference) loads it once, and never leaves the loop. */
#include "check.h"
#include "threads.h"

enum { WAITERS = 2, WAKE_ALL = 100 };

/* 0, 1 where a thread has it, and 2 where others may sleep besides. */
static uint32_t mutex;

/* How many signals there were, and how many threads wait. */
static uint32_t signals, waiting;

static uint32_t is_open, passed;
static struct thread waiters[WAITERS];

static void __attribute__((noinline)) lock(void) {
    uint32_t expected = 0;
    if (__atomic_compare_exchange_n(&mutex, &expected, 1, 0, __ATOMIC_ACQUIRE, __ATOMIC_RELAXED))
        return;
    while (__atomic_exchange_n(&mutex, 2, __ATOMIC_ACQUIRE) != 0)
        futex_wait(&mutex, 2, FUTEX_PRIVATE);
}

static void __attribute__((noinline)) unlock(void) {
    if (__atomic_exchange_n(&mutex, 0, __ATOMIC_RELEASE) == 2)
        futex_wake(&mutex, FUTEX_PRIVATE);
}

/* Waits for a signal, without the mutex meanwhile. It may also come back without one. */
static void __attribute__((noinline)) wait_at(uint32_t *signals) {
    uint32_t before = __atomic_load_n(signals, __ATOMIC_RELAXED);
    waiting++;
    unlock();
    futex_wait(signals, before, FUTEX_PRIVATE);
    lock();
    waiting--;
}

/* Wakes all that wait. */
static void __attribute__((noinline)) signal_all(uint32_t *signals) {
    if (waiting == 0)
        return;
    __atomic_fetch_add(signals, 1, __ATOMIC_RELAXED);
    call(CALL_FUTEX, (long)signals, FUTEX_WAKE | FUTEX_PRIVATE, WAKE_ALL, 0);
}

/* Goes through the gate, as soon as it is open. */
static void pass(void *unused) {
    (void)unused;
    lock();
    while (!is_open)
        wait_at(&signals);
    passed++;
    unlock();
}

static void open_gate(void) {
    lock();
    is_open = 1;
    signal_all(&signals);
    unlock();
}

int main(void) {
    for (int at = 0; at < WAITERS; at++)
        start_thread(&waiters[at], pass, NULL);
    open_gate();
    for (int at = 0; at < WAITERS; at++)
        join_thread(&waiters[at]);
    check(passed, ==, (uint32_t)WAITERS);
    check(waiting, ==, 0u);
    write_line("passed ", passed);
    return 0;
}
