/* Hazard pointers, with their cost on the side of who frees: two threads read the current object again and again. Each stores the object's
 * address as its hazard pointer, and then looks whether that object is still the current one, without a fence between the two. Main
 * publishes new objects, and frees each old one that is nobody's hazard. Before it looks at the hazard pointers it calls membarrier(2),
 * which doesn't return before a hazard pointer that still waits has entered memory. Built with -DPLAIN, main has a fence of its own in
 * place of the call. Then it may miss a hazard pointer, and free what is being read. */
#include "../common/threads.h"
#include "../common/barriers.h"
#ifndef READERS /* the small twin is given these by -D */
enum { READERS = 2, ROUNDS = 6, UPDATES = 3, WORDS = 4 };
#endif
/* An object whose words all have its number, and 0 once it is freed. */
static struct object {
    volatile uint64_t words[WORDS];
} objects[UPDATES + 1];

static struct object *volatile current;

static struct reader {
    struct thread thread;
    struct object *volatile hazard; /* the object that isn't freed; NULL for none */
    uint64_t mixed;                 /* how many objects it has read of which some word was freed */
} readers[READERS];

/* The objects that aren't current any more, and aren't freed yet. */
static struct object *retired[UPDATES];
static int retired_count;

/* The current object, which isn't freed from here to read_unlock. */
static inline struct object *read_lock(struct reader *own) {
    struct object *object;
    do {
        object = current;
        own->hazard = object;
        compiler_barrier();
    } while (current != object);
    return object;
}

static inline void read_unlock(struct reader *own) {
    compiler_barrier();
    own->hazard = NULL;
}

/* Reads the current object, word by word. */
static void __attribute__((noipa)) read_current(struct reader *own) {
    struct object *object = read_lock(own);
    int freed = 0;
    for (int word = 0; word < WORDS; word++)
        freed |= object->words[word] == 0;
    read_unlock(own);
    own->mixed += freed;
}

static void read_often(void *own) {
    for (int round = 0; round < ROUNDS; round++)
        read_current(own);
}

/* A barrier on all threads that run: what each has stored before enters memory. */
static void barrier_on_all(void) {
#ifdef PLAIN
    own_fence();
#else
    if (membarrier(MEMBARRIER_CMD_PRIVATE_EXPEDITED, 0, 0) != 0)
        call(CALL_EXIT_GROUP, 3, 0, 0, 0);
#endif
}

static void set_words(struct object *object, uint64_t value) {
    for (int word = 0; word < WORDS; word++)
        object->words[word] = value;
}

static int is_hazard(struct object *object) {
    for (int number = 0; number < READERS; number++)
        if (readers[number].hazard == object)
            return 1;
    return 0;
}

/* Frees the retired objects that are nobody's hazard. */
static void __attribute__((noipa)) scan(void) {
    barrier_on_all();
    int kept = 0;
    for (int number = 0; number < retired_count; number++)
        if (is_hazard(retired[number]))
            retired[kept++] = retired[number];
        else
            set_words(retired[number], 0);
    retired_count = kept;
}

/* Publishes an object, and retires the one before it. */
static void __attribute__((noipa)) update(struct object *object) {
    struct object *old = current;
    current = object;
    retired[retired_count++] = old;
    scan();
}

int main(void) {
#ifndef PLAIN
    if (membarrier(MEMBARRIER_CMD_REGISTER_PRIVATE_EXPEDITED, 0, 0) != 0) {
        write_text("membarrier isn't there\n");
        return 2;
    }
#endif
    for (int number = 0; number <= UPDATES; number++)
        set_words(&objects[number], number + 1);
    current = &objects[0];
    for (int number = 0; number < READERS; number++)
        start_thread(&readers[number].thread, read_often, &readers[number]);
    for (int number = 1; number <= UPDATES; number++)
        update(&objects[number]);
    uint64_t mixed = 0;
    for (int number = 0; number < READERS; number++) {
        join_thread(&readers[number].thread);
        mixed += readers[number].mixed;
    }
    if (mixed != 0)
        write_line("freed while it was read: ", mixed);
    else
        write_line("objects read ", READERS * ROUNDS);
    return mixed != 0;
}
