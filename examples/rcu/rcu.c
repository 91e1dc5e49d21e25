/* Read-copy-update in user space, as liburcu's flavour "memb" does it: two threads read the current object again and again, without a lock
 * and without a fence, while main publishes new ones, and frees each old one once no reader can have it any more. A reader's store that
 * says that it is inside may still wait when it loads the object; main calls membarrier(2), which doesn't return before that store has
 * entered memory. Built with -DPLAIN, main has a fence of its own in place of the call. Then it may take a reader for one that is
 * outside, and free what is being read. */
#include "../common/threads.h"
#include "../common/barriers.h"
#ifndef READERS /* the small twin is given these by -D */
enum { READERS = 2, ROUNDS = 6, UPDATES = 3, WORDS = 4 };
#endif
/* An object whose words all have its number, and 0 once it is freed. */
static struct object {
    volatile uint64_t words[WORDS];
} objects[UPDATES + 1];

static struct object *volatile current;

/* Counts the grace periods from 1; so many can't be made that it begins again. */
static volatile uint64_t grace_period = 1;

static struct reader {
    struct thread thread;
    volatile uint64_t inside; /* the grace period in which it went inside; 0 while it is outside */
    uint64_t mixed;           /* how many objects it has read of which some word was freed */
} readers[READERS];

/* From here to read_unlock the object that is loaded from `current` isn't freed. */
static inline void read_lock(struct reader *own) {
    own->inside = grace_period;
    compiler_barrier();
}

static inline void read_unlock(struct reader *own) {
    compiler_barrier();
    own->inside = 0;
}

/* Reads the current object, word by word. */
static void __attribute__((noipa)) read_current(struct reader *own) {
    read_lock(own);
    struct object *object = current;
    int freed = 0;
    for (int word = 0; word < WORDS; word++)
        freed |= object->words[word] == 0;
    read_unlock(own);
    own->mixed += freed;
}

static void read_often(void *own) {
    for (int round = 0; round < ROUNDS; round++)
        read_current(own);
}

/* A barrier on all threads that run: what each has stored before enters memory. */
static void barrier_on_all(void) {
#ifdef PLAIN
    own_fence();
#else
    if (membarrier(MEMBARRIER_CMD_PRIVATE_EXPEDITED, 0, 0) != 0)
        call(CALL_EXIT_GROUP, 3, 0, 0, 0);
#endif
}

/* Waits until each reader that was inside has been outside. */
static void __attribute__((noipa)) synchronize(void) {
    barrier_on_all();
    uint64_t now = grace_period + 1, inside;
    grace_period = now;
    for (int number = 0; number < READERS; number++)
        while ((inside = readers[number].inside) != 0 && inside < now)
            call(CALL_SCHED_YIELD, 0, 0, 0, 0);
    barrier_on_all();
}

static void set_words(struct object *object, uint64_t value) {
    for (int word = 0; word < WORDS; word++)
        object->words[word] = value;
}

/* Publishes an object, and frees the one before it. */
static void __attribute__((noipa)) update(struct object *object) {
    struct object *old = current;
    current = object;
    synchronize();
    set_words(old, 0);
}

int main(void) {
#ifndef PLAIN
    if (membarrier(MEMBARRIER_CMD_REGISTER_PRIVATE_EXPEDITED, 0, 0) != 0) {
        write_text("membarrier isn't there\n");
        return 2;
    }
#endif
    for (int number = 0; number <= UPDATES; number++)
        set_words(&objects[number], number + 1);
    current = &objects[0];
    for (int number = 0; number < READERS; number++)
        start_thread(&readers[number].thread, read_often, &readers[number]);
    for (int number = 1; number <= UPDATES; number++)
        update(&objects[number]);
    uint64_t mixed = 0;
    for (int number = 0; number < READERS; number++) {
        join_thread(&readers[number].thread);
        mixed += readers[number].mixed;
    }
    if (mixed != 0)
        write_line("freed while it was read: ", mixed);
    else
        write_line("objects read ", READERS * ROUNDS);
    return mixed != 0;
}
