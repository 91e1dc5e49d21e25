/* A cache of blocks for each processor, over the malloc of a C library: a free list by restartable sequences, from which a block is taken
 * where there is one, and to which it is given back. Three threads, each on a stack of 8 KiB, take and give; each fills its blocks with its
 * own number and looks whether it is still there. Then each prints a line, all at once. */
#include <stdio.h>
#include <stdlib.h>

#include "../common/hosted.h"
#include "../common/rseq_operations.h"
#include "../common/stacks.h"

enum { THREADS = 3, ROUNDS = 3, AT_ONCE = 2, WORDS = 4, STACK = 8192, PROCESSORS = 8, CACHE_LINE = 64 };

struct block {
    struct block *next;
    uint64_t words[WORDS];
};

static struct {
    _Alignas(CACHE_LINE) struct block *head;
} caches[PROCESSORS];

static struct owner {
    struct worker worker;
    struct rseq area;
    uint64_t number;
    int is_wrong;
} owners[THREADS];

/* A block from the cache of the processor on which the thread runs, or a new one where that is empty. */
static struct block *__attribute__((noipa)) take(struct rseq *area) {
    struct block *block;
    int status;
    do {
        int cpu = rseq_cpu_start(area);
        status = rseq_cmpnev_storeoffp_load(area, (intptr_t *)&caches[cpu].head, 0, offsetof(struct block, next), (intptr_t *)&block, cpu);
        if (status > 0)
            return malloc(sizeof *block);
    } while (status != 0);
    return block;
}

/* Gives a block to the cache of the processor on which the thread runs. */
static void __attribute__((noipa)) give(struct rseq *area, struct block *block) {
    int cpu, status;
    do {
        cpu = rseq_cpu_start(area);
        struct block *head = __atomic_load_n(&caches[cpu].head, __ATOMIC_RELAXED);
        block->next = head;
        status = rseq_cmpeqv_storev(area, (intptr_t *)&caches[cpu].head, (intptr_t)head, (intptr_t)block, cpu);
    } while (status != 0);
}

/* Writes the thread's number all over a block, and looks whether it is still there: nobody else has the block meanwhile. */
static int fill(struct block *block, uint64_t number) {
    for (int at = 0; at < WORDS; at++)
        block->words[at] = number;
    int is_wrong = 0;
    for (int at = 0; at < WORDS; at++)
        is_wrong |= __atomic_load_n(&block->words[at], __ATOMIC_RELAXED) != number;
    return is_wrong;
}

static void take_and_give(void *own) {
    struct owner *owner = own;
    if (rseq_register(&owner->area) != 0) {
        puts("rseq isn't there");
        _exit(2);
    }
    for (int round = 0; round < ROUNDS; round++) {
        struct block *blocks[AT_ONCE];
        for (int at = 0; at < AT_ONCE; at++) {
            blocks[at] = take(&owner->area);
            if (blocks[at] == NULL)
                _exit(3);
            owner->is_wrong |= fill(blocks[at], owner->number);
        }
        for (int at = 0; at < AT_ONCE; at++)
            give(&owner->area, blocks[at]);
    }
    printf("%d blocks were its own: %s\n", ROUNDS * AT_ONCE, owner->is_wrong ? "no" : "yes");
    rseq_unregister(&owner->area);
}

/* Frees the blocks of a list: how many they were. */
static int free_list(struct block *block) {
    int count = 0;
    for (struct block *next; block != NULL; block = next, count++) {
        next = block->next;
        free(block);
    }
    return count;
}

/* Frees the blocks of all caches: whether there were some, and no more than were taken. It brings the lists together first that aren't
 * empty, so that its steps are the same on whichever processors the threads ran. */
static int free_all(void) {
    struct block *heads[PROCESSORS];
    int full = 0, count = 0;
    for (int cpu = 0; cpu < PROCESSORS; cpu++) {
        heads[full] = caches[cpu].head;
        full += caches[cpu].head != NULL;
    }
    for (int number = 0; number < full; number++)
        count += free_list(heads[number]);
    return count >= AT_ONCE && count <= THREADS * ROUNDS * AT_ONCE;
}

int main(void) {
    int is_wrong = 0;
    for (int number = 0; number < THREADS; number++) {
        owners[number].number = number + 1;
        if (start_worker(&owners[number].worker, take_and_give, &owners[number], STACK) != 0)
            return 4;
    }
    for (int number = 0; number < THREADS; number++) {
        join_worker(&owners[number].worker);
        is_wrong |= owners[number].is_wrong;
    }
    puts(free_all() && !is_wrong ? "right" : "wrong");
    return is_wrong;
}
