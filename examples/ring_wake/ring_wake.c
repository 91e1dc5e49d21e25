/* A ring of one slot between a producer and a consumer. Who can't go on says that it sleeps, looks at the slot once more, and sleeps in a
 * futex; the other wakes it only where it says so, and so makes no call as long as nobody sleeps. Between the store of each and its look at
 * what the other stores is a fence. Built with -DLOST, the second look isn't there: the slot may change between the first look and the word
 * that says so. Then nobody is woken, and both sleep in the end. */
#include "../common/threads.h"
#include "../common/barriers.h"

enum { ITEMS = 6, EMPTY = 0 };

static struct thread other;

/* An item, from 1 on, or EMPTY. */
static volatile uint32_t slot;

/* For each side, whether it sleeps, or is about to: 1 or 0. */
static volatile uint32_t producer_sleeps, consumer_sleeps;

/* Sleeps as long as the slot is full, or is empty. The kernel looks at the word `sleeps` once more, and doesn't let the thread sleep where
 * that is 0 again: then the other is about to wake it. */
static void __attribute__((noipa)) sleep_while(int is_full, volatile uint32_t *sleeps) {
    while ((slot != EMPTY) == is_full) {
        *sleeps = 1;
        own_fence();
#ifndef LOST
        if ((slot != EMPTY) != is_full)
            break;
#endif
        futex_wait((uint32_t *)sleeps, 1, FUTEX_PRIVATE);
    }
    *sleeps = 0;
}

/* Wakes the other side, if it says that it sleeps. */
static void __attribute__((noipa)) wake(volatile uint32_t *sleeps) {
    own_fence();
    if (*sleeps == 0)
        return;
    *sleeps = 0;
    futex_wake((uint32_t *)sleeps, FUTEX_PRIVATE);
}

static void put(uint32_t item) {
    sleep_while(1, &producer_sleeps);
    slot = item;
    wake(&consumer_sleeps);
}

static uint32_t get(void) {
    sleep_while(0, &consumer_sleeps);
    uint32_t item = slot;
    slot = EMPTY;
    wake(&producer_sleeps);
    return item;
}

static void produce(void *unused) {
    (void)unused;
    for (uint32_t item = 1; item <= ITEMS; item++)
        put(item);
}

int main(void) {
    start_thread(&other, produce, NULL);
    uint64_t total = 0;
    for (int number = 0; number < ITEMS; number++)
        total += get();
    join_thread(&other);
    write_line("total ", total);
    return total != ITEMS * (ITEMS + 1) / 2;
}
