/* A mutex over futex(2), and one that the thread which has it may take again. */
#pragma once
#include "threads.h"

/* Nobody has it; a thread has it; or a thread has it and others may sleep. */
enum { LOCK_FREE, LOCK_TAKEN, LOCK_CONTENDED };

struct lock {
    uint32_t state;
};

/* Takes the lock. A thread that has slept can't know whether others sleep still, and so takes it as contended. */
static inline void take_lock(struct lock *lock) {
    uint32_t free = LOCK_FREE;
    if (__atomic_compare_exchange_n(&lock->state, &free, LOCK_TAKEN, 0, __ATOMIC_ACQUIRE, __ATOMIC_RELAXED))
        return;
    while (__atomic_exchange_n(&lock->state, LOCK_CONTENDED, __ATOMIC_ACQUIRE) != LOCK_FREE)
        futex_wait(&lock->state, LOCK_CONTENDED, FUTEX_PRIVATE);
}

/* Gives the lock back, and wakes one thread that may sleep. */
static inline void give_lock(struct lock *lock) {
    if (__atomic_exchange_n(&lock->state, LOCK_FREE, __ATOMIC_RELEASE) == LOCK_CONTENDED)
        futex_wake(&lock->state, FUTEX_PRIVATE);
}

/* A lock that its owner may take again, and gives back as often. The owner is named by its tp, so each thread needs one of its own. */
struct nested_lock {
    struct lock lock;
    uint32_t depth;
    uintptr_t owner;
};

static inline uintptr_t own_tp(void) {
    uintptr_t tp;
    asm volatile("mv %0, tp" : "=r"(tp));
    return tp;
}

static inline void take_nested_lock(struct nested_lock *lock) {
    if (__atomic_load_n(&lock->owner, __ATOMIC_RELAXED) != own_tp()) {
        take_lock(&lock->lock);
        __atomic_store_n(&lock->owner, own_tp(), __ATOMIC_RELAXED);
    }
    lock->depth++;
}

static inline void give_nested_lock(struct nested_lock *lock) {
    if (--lock->depth != 0)
        return;
    __atomic_store_n(&lock->owner, 0, __ATOMIC_RELAXED);
    give_lock(&lock->lock);
}
