/* A lock whose waiters stand in a queue (Mellor-Crummey and Scott), each with a node of its own. A waiter looks a few times whether it has
 * been granted the lock, then says that it parks, and sleeps in a futex. Who hands the lock on grants it, and wakes the next one where that
 * says that it parks. Between the two is a fence. Built with -DWRONG it doesn't. Then the grant may wait in the store buffer while
 * `parks` is loaded: the waiter sleeps, since memory doesn't have the grant yet, and nobody wakes it. The run ends stuck. */
#include <stdatomic.h>

#include "check.h"
#include "threads.h"

enum { THREADS = 2, ROUNDS = 2, LOOKS = 2 };

struct node {
    _Atomic(struct node *) next;
    atomic_uint granted; /* a futex */
    atomic_uint parks;
};

static struct lock {
    _Atomic(struct node *) last;
} lock;

/* What the lock guards. */
static uint32_t count;

static struct thread others[THREADS - 1];

/* Waits until the node has been granted the lock. */
static void await(struct node *own) {
    for (int look = 0; look < LOOKS; look++)
        if (atomic_load_explicit(&own->granted, memory_order_acquire))
            return;
    atomic_store_explicit(&own->parks, 1, memory_order_relaxed);
    atomic_thread_fence(memory_order_seq_cst);
    while (!atomic_load_explicit(&own->granted, memory_order_acquire))
        futex_wait((uint32_t *)&own->granted, 0, FUTEX_PRIVATE);
}

static void __attribute__((noipa)) take(struct lock *lock, struct node *own) {
    atomic_store_explicit(&own->next, NULL, memory_order_relaxed);
    atomic_store_explicit(&own->granted, 0, memory_order_relaxed);
    atomic_store_explicit(&own->parks, 0, memory_order_relaxed);
    struct node *before = atomic_exchange_explicit(&lock->last, own, memory_order_acq_rel);
    if (before == NULL)
        return;
    atomic_store_explicit(&before->next, own, memory_order_release);
    await(own);
}

/* Who comes next in the queue: NULL where nobody does, and the lock is free. */
static struct node *leave(struct lock *lock, struct node *own) {
    struct node *next = atomic_load_explicit(&own->next, memory_order_acquire), *last = own;
    if (next == NULL
        && atomic_compare_exchange_strong_explicit(&lock->last, &last, NULL, memory_order_release, memory_order_relaxed))
        return NULL;
    while ((next = atomic_load_explicit(&own->next, memory_order_acquire)) == NULL)
        call(CALL_SCHED_YIELD, 0, 0, 0, 0); /* it is in the queue, and about to say so */
    return next;
}

static void __attribute__((noipa)) give(struct lock *lock, struct node *own) {
    struct node *next = leave(lock, own);
    if (next == NULL)
        return;
    atomic_store_explicit(&next->granted, 1, memory_order_release);
#ifdef WRONG
    atomic_signal_fence(memory_order_seq_cst);
#else
    atomic_thread_fence(memory_order_seq_cst);
#endif
    if (atomic_load_explicit(&next->parks, memory_order_relaxed))
        futex_wake((uint32_t *)&next->granted, FUTEX_PRIVATE);
}

static void add_often(void *unused) {
    (void)unused;
    struct node own;
    for (int round = 0; round < ROUNDS; round++) {
        take(&lock, &own);
        count++;
        give(&lock, &own);
    }
}

int main(void) {
    for (int at = 0; at < THREADS - 1; at++)
        start_thread(&others[at], add_often, NULL);
    add_often(NULL);
    for (int at = 0; at < THREADS - 1; at++)
        join_thread(&others[at]);
    check(count, ==, (uint32_t)(THREADS * ROUNDS));
    write_line("count ", count);
    return 0;
}
