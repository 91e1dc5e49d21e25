/* A slab of blocks with a list for each processor. A thread takes blocks from the list of its own processor and gives them back there, by
 * restartable sequences. A block whose home is another processor goes to the remote list of its home, which all threads share, by compare
 * and exchange. Who finds its own list empty looks there. It takes the remote list as a whole, so it never reads a block that it hasn't.
 * Built with -DWRONG, it takes the first block alone: it reads which one is next, and then exchanges the head. Where others have taken both
 * meanwhile and given the first one back (ABA), the next one is taken twice. */
#include "check.h"
#include "rseq_operations.h"

enum { PROCESSORS = 8, BLOCKS = 3, THREADS = 2, ROUNDS = 2 };

struct block {
    struct block *next;
    int home;
    uint32_t is_taken;
};

static struct slab {
    _Alignas(64) struct block *own; /* by sequences of this processor */
    struct block *remote;           /* by compare and exchange, from anywhere */
} slabs[PROCESSORS];

static struct block blocks[BLOCKS];

static struct user {
    struct thread thread;
    struct rseq area;
} users[THREADS];

/* Puts a block into a remote list. */
static void give_remote(struct slab *slab, struct block *block) {
    struct block *head = __atomic_load_n(&slab->remote, __ATOMIC_RELAXED);
    do
        __atomic_store_n(&block->next, head, __ATOMIC_RELAXED);
    while (!__atomic_compare_exchange_n(&slab->remote, &head, block, 1, __ATOMIC_RELEASE, __ATOMIC_RELAXED));
}

#ifdef WRONG
/* Takes the first block of a remote list: NULL where there is none. */
static struct block *take_remote(struct slab *slab) {
    struct block *head = __atomic_load_n(&slab->remote, __ATOMIC_ACQUIRE), *next;
    do {
        if (head == NULL)
            return NULL;
        next = __atomic_load_n(&head->next, __ATOMIC_RELAXED);
    } while (!__atomic_compare_exchange_n(&slab->remote, &head, next, 1, __ATOMIC_ACQUIRE, __ATOMIC_ACQUIRE));
    return head;
}
#else
/* Takes a remote list as a whole, keeps its first block, and gives the others back: NULL where there is none. */
static struct block *take_remote(struct slab *slab) {
    struct block *head = __atomic_exchange_n(&slab->remote, NULL, __ATOMIC_ACQUIRE);
    if (head == NULL)
        return NULL;
    for (struct block *rest = head->next, *next; rest != NULL; rest = next) {
        next = rest->next;
        give_remote(slab, rest);
    }
    return head;
}
#endif

/* Takes a block from the own list of the processor on which the thread runs: NULL where there is none. */
static struct block *take_own(struct rseq *area) {
    struct block *block;
    int status;
    do {
        int cpu = rseq_cpu_start(area);
        status = rseq_cmpnev_storeoffp_load(area, (intptr_t *)&slabs[cpu].own, 0, offsetof(struct block, next), (intptr_t *)&block, cpu);
    } while (status < 0);
    return status == 0 ? block : NULL;
}

/* Takes a block: from the own list, or from a remote one, wherever there is one. */
static struct block *__attribute__((noipa)) take(struct rseq *area) {
    struct block *block = take_own(area);
    for (int cpu = 0; block == NULL && cpu < THREADS; cpu++)
        block = take_remote(&slabs[cpu]);
    if (block != NULL)
        check(__atomic_exchange_n(&block->is_taken, 1, __ATOMIC_RELAXED), ==, 0u);
    return block;
}

/* Gives a block back: into the own list where its home is the processor on which the thread runs. */
static void __attribute__((noipa)) give(struct rseq *area, struct block *block) {
    if (block == NULL)
        return;
    __atomic_store_n(&block->is_taken, 0, __ATOMIC_RELAXED);
    for (int cpu = rseq_cpu_start(area); cpu == block->home; cpu = rseq_cpu_start(area)) {
        struct block *head = __atomic_load_n(&slabs[cpu].own, __ATOMIC_RELAXED);
        __atomic_store_n(&block->next, head, __ATOMIC_RELAXED);
        if (rseq_cmpeqv_storev(area, (intptr_t *)&slabs[cpu].own, (intptr_t)head, (intptr_t)block, cpu) == 0)
            return;
    }
    give_remote(&slabs[block->home], block);
}

static void use(void *own) {
    struct rseq *area = own;
    check(rseq_register(area) == 0);
    for (int round = 0; round < ROUNDS; round++) {
        struct block *first = take(area), *second = take(area);
        give(area, first);
        give(area, second);
    }
    rseq_unregister(area);
}

int main(void) {
    long count = 0;
    for (int at = 0; at < BLOCKS; at++)
        give_remote(&slabs[0], &blocks[at]);
    for (int at = 0; at < THREADS; at++)
        start_thread(&users[at].thread, use, &users[at].area);
    for (int at = 0; at < THREADS; at++)
        join_thread(&users[at].thread);
    for (int cpu = 0; cpu < PROCESSORS; cpu++) {
        for (struct block *block = slabs[cpu].own; block != NULL; block = block->next)
            count++;
        for (struct block *block = slabs[cpu].remote; block != NULL && count <= BLOCKS; block = block->next)
            count++;
    }
    check(count, ==, BLOCKS);
    write_line("blocks ", count);
    return 0;
}
