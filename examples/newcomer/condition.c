/* A queue of one place between a producer and a consumer, under a mutex, with one condition variable: a number in a futex that each
 * signal makes one greater. Who waits reads the number, gives the mutex back, and sleeps as long as the number is still that. Built with
 * -DWRONG it gives the mutex back first. Where the other side signals between the two, the number that is read is already the new one,
 * and nobody wakes who sleeps on it: the run ends stuck. */
#include <stdatomic.h>

#include "check.h"
#include "threads.h"

enum { ITEMS = 3, NONE = 0 };

/* 0, 1 where a thread has it, and 2 where others may sleep besides. */
struct mutex {
    atomic_uint state;
};

struct condition {
    atomic_uint signals;
};

static struct mutex mutex;
static struct condition changed;
static uint32_t place; /* an item, or NONE */
static struct thread producer;

static void lock(struct mutex *mutex) {
    uint32_t expected = 0;
    if (atomic_compare_exchange_strong_explicit(&mutex->state, &expected, 1, memory_order_acquire, memory_order_relaxed))
        return;
    while (atomic_exchange_explicit(&mutex->state, 2, memory_order_acquire) != 0)
        futex_wait((uint32_t *)&mutex->state, 2, FUTEX_PRIVATE);
}

static void unlock(struct mutex *mutex) {
    if (atomic_exchange_explicit(&mutex->state, 0, memory_order_release) == 2)
        futex_wake((uint32_t *)&mutex->state, FUTEX_PRIVATE);
}

/* Waits for a signal, without the mutex meanwhile. It may also come back without one. */
static void __attribute__((noinline)) wait(struct condition *condition, struct mutex *mutex) {
#ifdef WRONG
    unlock(mutex);
    uint32_t before = atomic_load_explicit(&condition->signals, memory_order_relaxed);
#else
    uint32_t before = atomic_load_explicit(&condition->signals, memory_order_relaxed);
    unlock(mutex);
#endif
    futex_wait((uint32_t *)&condition->signals, before, FUTEX_PRIVATE);
    lock(mutex);
}

/* Wakes one thread that waits. */
static void __attribute__((noinline)) signal(struct condition *condition) {
    atomic_fetch_add_explicit(&condition->signals, 1, memory_order_relaxed);
    futex_wake((uint32_t *)&condition->signals, FUTEX_PRIVATE);
}

/* Puts an item into the place, as soon as it is empty. */
static void put(uint32_t item) {
    lock(&mutex);
    while (place != NONE)
        wait(&changed, &mutex);
    place = item;
    signal(&changed);
    unlock(&mutex);
}

/* Takes the item, as soon as there is one. */
static uint32_t take(void) {
    lock(&mutex);
    while (place == NONE)
        wait(&changed, &mutex);
    uint32_t item = place;
    place = NONE;
    signal(&changed);
    unlock(&mutex);
    return item;
}

static void produce(void *unused) {
    (void)unused;
    for (uint32_t item = 1; item <= ITEMS; item++)
        put(item);
}

int main(void) {
    start_thread(&producer, produce, NULL);
    for (uint32_t item = 1; item <= ITEMS; item++)
        check(take(), ==, item);
    join_thread(&producer);
    write_line("items ", ITEMS);
    return 0;
}
