/* Reclamation by epochs: a reader says in which epoch it reads, loads the current object, reads it, and says that it doesn't read any more.
 * Who has published a new object frees the old one two epochs later; the epoch goes on only when each reader reads in the current one, or
 * doesn't read. Between a reader's word and its load of the object is a fence. Built with -DWRONG it doesn't. Then its word may wait in
 * the store buffer while it has the old object: the epoch goes on twice, and the object is freed while it is read. */
#include "check.h"
#include "threads.h"

enum { READERS = 2, READS = 2, UPDATES = 2, WORDS = 2 };

/* An object, all of whose words have its number; 0 once it is freed. */
struct object {
    uint32_t words[WORDS];
};

static struct object objects[UPDATES + 1];
static struct object *current;
static uint32_t epoch = 1;

static struct reader {
    struct thread thread;
    uint32_t reads_in; /* an epoch, or 0 */
} readers[READERS];

static void set_words(struct object *object, uint32_t value) {
    for (int word = 0; word < WORDS; word++)
        __atomic_store_n(&object->words[word], value, __ATOMIC_RELAXED);
}

/* The current object, which isn't freed from here to read_unlock. */
static inline struct object *read_lock(struct reader *own) {
    __atomic_store_n(&own->reads_in, __atomic_load_n(&epoch, __ATOMIC_RELAXED), __ATOMIC_RELAXED);
#ifdef WRONG
    __atomic_thread_fence(__ATOMIC_ACQUIRE);
#else
    __atomic_thread_fence(__ATOMIC_SEQ_CST);
#endif
    return __atomic_load_n(&current, __ATOMIC_ACQUIRE);
}

static inline void read_unlock(struct reader *own) {
    __atomic_store_n(&own->reads_in, 0, __ATOMIC_RELEASE);
}

/* Reads the current object, word by word. */
static void __attribute__((noipa)) read_current(struct reader *own) {
    struct object *object = read_lock(own);
    for (int word = 0; word < WORDS; word++)
        check(__atomic_load_n(&object->words[word], __ATOMIC_RELAXED), !=, 0u);
    read_unlock(own);
}

static void read_often(void *own) {
    for (int at = 0; at < READS; at++)
        read_current(own);
}

/* Whether some reader reads in another epoch than the current one. */
static int is_late(uint32_t now) {
    for (int at = 0; at < READERS; at++) {
        uint32_t reads_in = __atomic_load_n(&readers[at].reads_in, __ATOMIC_ACQUIRE);
        if (reads_in != 0 && reads_in != now)
            return 1;
    }
    return 0;
}

/* Goes on to the next epoch, as soon as all readers are in this one or don't read. */
static void advance(void) {
    __atomic_thread_fence(__ATOMIC_SEQ_CST);
    while (is_late(epoch))
        call(CALL_SCHED_YIELD, 0, 0, 0, 0);
    __atomic_store_n(&epoch, epoch + 1, __ATOMIC_RELEASE);
}

/* Publishes an object, and frees the one before it. */
static void __attribute__((noipa)) update(struct object *object) {
    struct object *old = __atomic_exchange_n(&current, object, __ATOMIC_ACQ_REL);
    advance();
    advance();
    set_words(old, 0);
}

int main(void) {
    for (int number = 0; number <= UPDATES; number++)
        set_words(&objects[number], number + 1);
    __atomic_store_n(&current, &objects[0], __ATOMIC_RELEASE);
    for (int at = 0; at < READERS; at++)
        start_thread(&readers[at].thread, read_often, &readers[at]);
    for (int number = 1; number <= UPDATES; number++)
        update(&objects[number]);
    for (int at = 0; at < READERS; at++)
        join_thread(&readers[at].thread);
    write_line("epoch ", epoch);
    return 0;
}
