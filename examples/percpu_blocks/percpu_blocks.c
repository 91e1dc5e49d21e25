/* A free list for each processor, by the push and pop blocks of crates/percpu_lib, copied as inline assembler (docs/reference/BLOCKS.md). Three
 * threads each put two nodes of their own into the list of the processor on which they run, and then take two nodes and give them back,
 * again and again. Nobody may have a node that another has. Their parent joins the threads, and counts the nodes that are in the lists. */
#include "../common/percpu_blocks.h"

enum { THREADS = 3, OWN_NODES = 2, ROUNDS = 3, PROCESSORS = 8, CACHE_LINE = 64 };

struct node {
    struct node *next;
    uint32_t is_taken; /* whether a thread has it: who takes it looks at this, the list doesn't */
};

static struct {
    _Alignas(CACHE_LINE) struct node *head;
} lists[PROCESSORS];

static struct owner {
    struct thread thread;
    struct rseq area;
    struct node nodes[OWN_NODES];
} owners[THREADS];

/* How often somebody took a node that was taken already. */
static uint32_t taken_twice;

/* Puts a node before the first one of the processor on which the thread runs. */
static void __attribute__((noipa)) push(struct rseq *area, struct node *node) {
    asm volatile(PERCPU_DESCRIPTOR PERCPU_PUSH("9b") : : [area] "r"(area), [cells] "r"(lists), [value] "r"(node) : PERCPU_CLOBBERS);
}

/* Takes the first node of the processor on which the thread runs: NULL where there is none. */
static struct node *__attribute__((noipa)) pop(struct rseq *area) {
    struct node *node;
    asm volatile(PERCPU_DESCRIPTOR PERCPU_POP("9b") : [value] "=&r"(node) : [area] "r"(area), [cells] "r"(lists) : PERCPU_CLOBBERS);
    return node;
}

/* Takes a node, if there is one, and looks whether another thread has it. */
static struct node *take(struct rseq *area) {
    struct node *node = pop(area);
    if (node != NULL && __atomic_exchange_n(&node->is_taken, 1, __ATOMIC_RELAXED) != 0)
        __atomic_fetch_add(&taken_twice, 1, __ATOMIC_RELAXED);
    return node;
}

/* Gives a node back, if it is one. */
static void give(struct rseq *area, struct node *node) {
    if (node == NULL)
        return;
    node->is_taken = 0;
    push(area, node);
}

/* Puts the thread's own nodes in, and then takes two and gives both back, many times. */
static void take_and_give(void *own) {
    struct owner *owner = own;
    struct rseq *area = &owner->area;
    if (rseq_register(area) != 0) {
        write_text("rseq isn't there\n");
        call(CALL_EXIT_GROUP, 2, 0, 0, 0);
    }
    for (int number = 0; number < OWN_NODES; number++)
        give(area, &owner->nodes[number]);
    for (int round = 0; round < ROUNDS; round++) {
        struct node *first = take(area), *second = take(area);
        give(area, first);
        give(area, second);
    }
    rseq_unregister(area);
}

/* Counts the nodes of a list that nobody has, up to one that was counted already. */
static uint64_t count_list(struct node *node) {
    uint64_t count = 0;
    for (; node != NULL && !node->is_taken; node = node->next) {
        node->is_taken = 1;
        count++;
    }
    taken_twice += node != NULL;
    return count;
}

/* Counts the nodes of all lists. It brings the lists together first that aren't empty, so that its steps are the same on whichever
 * processor the threads ran. */
static uint64_t count_all(void) {
    struct node *heads[PROCESSORS];
    int full = 0;
    for (int cpu = 0; cpu < PROCESSORS; cpu++) {
        heads[full] = lists[cpu].head;
        full += lists[cpu].head != NULL;
    }
    uint64_t count = 0;
    for (int number = 0; number < full; number++)
        count += count_list(heads[number]);
    return count;
}

int main(void) {
    for (int number = 0; number < THREADS; number++)
        start_thread(&owners[number].thread, take_and_give, &owners[number]);
    for (int number = 0; number < THREADS; number++)
        join_thread(&owners[number].thread);
    uint64_t count = count_all();
    int is_right = count == THREADS * OWN_NODES && taken_twice == 0;
    write_line(is_right ? "nodes " : "a node is lost, or was taken twice: nodes ", count);
    return is_right ? 0 : 1;
}
