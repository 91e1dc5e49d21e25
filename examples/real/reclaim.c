// Reclamation by liburcu: two threads read the current node. The first one puts another in its place, waits by synchronize_rcu() until
// nobody can have the old one any more, and gives it back to the pool. A reader who finds a word of a node that was given back stops the run.
#include <assert.h>
#include <pthread.h>
#include <stdio.h>
#include <urcu.h> /* with -DRCU_MEMBARRIER the flavour "memb", with -DRCU_MB "mb" */

enum { READERS = 2, READS = 60, UPDATES = 3, WORDS = 32, FREE = 0, LIVE = 42 };
struct node { long words[WORDS]; };
static struct node pool[UPDATES + 1], *current;
static int is_over;

static void fill(struct node *node, long with) {
    for (int at = 0; at < WORDS; at++)
        CMM_STORE_SHARED(node->words[at], with);
}

static void *read_often(void *unused) {
    rcu_register_thread();
    for (int done = 0; done < READS && !CMM_LOAD_SHARED(is_over); done++) {
        rcu_read_lock();
        struct node *node = rcu_dereference(current);
        for (int at = 0; at < WORDS; at++)
            assert(CMM_LOAD_SHARED(node->words[at]) == LIVE);
        rcu_read_unlock();
    }
    rcu_unregister_thread();
    return unused;
}

static void update(struct node *new) {
    fill(new, LIVE);
    struct node *old = rcu_xchg_pointer(&current, new);
    synchronize_rcu();
    fill(old, FREE);
}

int main(void) {
    pthread_t readers[READERS];
    current = pool;
    fill(current, LIVE);
    for (int at = 0; at < READERS; at++)
        if (pthread_create(&readers[at], NULL, read_often, NULL))
            return 2;
    for (int done = 1; done <= UPDATES; done++)
        update(&pool[done]);
    CMM_STORE_SHARED(is_over, 1);
    for (int at = 0; at < READERS; at++)
        pthread_join(readers[at], NULL);
    puts("no node was read after it was given back");
    return 0;
}
