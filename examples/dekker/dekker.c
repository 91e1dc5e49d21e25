/* Dekker's handshake with its cost on one side, as in a biased lock: two threads each add to a count under one lock. The owner takes it
 * often: it stores its flag and loads the other's, without a fence between the two. The other takes it seldom, and calls membarrier(2)
 * between its store and its load: what the owner stored before has then entered memory, and what it loads behind that sees the flag.
 * Built with -DPLAIN, the other has a fence of its own in place of the call. Then each may miss the flag of the other, both are inside
 * at once, and an addition may be lost. */
#include "../common/threads.h"
#include "../common/barriers.h"

enum { OFTEN = 6, SELDOM = 3 };

static struct thread other;
static volatile uint32_t owner_inside, other_wants;
static volatile uint32_t count;

static inline void yield(void) {
    call(CALL_SCHED_YIELD, 0, 0, 0, 0);
}

/* The owner: goes inside where the other doesn't want to, and else lets it go first. */
static void __attribute__((noipa)) take_as_owner(void) {
    for (;;) {
        owner_inside = 1;
        compiler_barrier();
        if (!other_wants)
            return;
        owner_inside = 0;
        while (other_wants)
            yield();
    }
}

static void give_as_owner(void) {
    owner_inside = 0;
}

/* The other: says that it wants to go inside, and waits until the owner is outside. */
static void __attribute__((noipa)) take_as_other(void) {
    other_wants = 1;
#ifdef PLAIN
    own_fence();
#else
    if (membarrier(MEMBARRIER_CMD_PRIVATE_EXPEDITED, 0, 0) != 0)
        call(CALL_EXIT_GROUP, 3, 0, 0, 0);
#endif
    while (owner_inside)
        yield();
}

static void give_as_other(void) {
    other_wants = 0;
}

static void __attribute__((noinline)) add(void) {
    count = count + 1;
}

static void run_other(void *unused) {
    (void)unused;
    for (int round = 0; round < SELDOM; round++) {
        take_as_other();
        add();
        give_as_other();
    }
}

int main(void) {
#ifndef PLAIN
    if (membarrier(MEMBARRIER_CMD_REGISTER_PRIVATE_EXPEDITED, 0, 0) != 0) {
        write_text("membarrier isn't there\n");
        return 2;
    }
#endif
    start_thread(&other, run_other, NULL);
    for (int round = 0; round < OFTEN; round++) {
        take_as_owner();
        add();
        give_as_owner();
    }
    join_thread(&other);
    write_line(count == OFTEN + SELDOM ? "count " : "additions are lost: count ", count);
    return count == OFTEN + SELDOM ? 0 : 1;
}
