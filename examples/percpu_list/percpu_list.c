/* A free list for each processor, by restartable sequences in the words of librseq. Three threads each put two nodes of their own into the
 * list of the processor on which they run, and then take two nodes and give both back, again and again. Nobody may have a node that another
 * has. That holds because `pop` is one act on its processor: it reads the first node and the one behind it, and makes that one the first.
 * Their parent joins the threads, and takes and counts the nodes that are in the lists then.
 *
 * Built with -DNEXT_OUTSIDE, `pop` reads both nodes before its sequence, which only compares the first one and stores the other. Where
 * another thread takes both between the two, and gives the first one back, that is still the first, but the other isn't the one behind it:
 * the list begins with a node that a thread has.
 *
 * Built with -DCOMMIT_NOT_LAST, the sequence of `push` ends one instruction late: it clears `rseq_cs` behind the store that commits. A
 * thread that is interrupted between the two goes on at the abort handler, and puts its node in once more: the node lies behind itself. */
#include "../common/rseq.h"

enum { THREADS = 3, OWN_NODES = 2, ROUNDS = 3, PROCESSORS = 8, CACHE_LINE = 64 };

struct node {
    struct node *next;
    uint32_t is_taken; /* whether a thread has it: who takes it looks at this, the list doesn't */
};

static struct {
    _Alignas(CACHE_LINE) struct node *head;
} lists[PROCESSORS];

static struct owner {
    struct thread thread;
    struct rseq area;
    struct node nodes[OWN_NODES];
} owners[THREADS];

/* How often somebody took a node that was taken already. */
static uint32_t taken_twice;

/* Loads a word that other threads may write. */
#define READ_ONCE(word) (*(volatile __typeof__(word) *)&(word))

/* The store that commits, and where the sequence ends. */
#ifdef COMMIT_NOT_LAST
#define COMMIT_OF_STOREV "   sd      %[newv], %[v]\n   sd      zero, %[rseq_cs]\n3:\n"
#else
#define COMMIT_OF_STOREV RSEQ_ASM_OP_FINAL_STORE(newv, v, 3)
#endif

/* Stores a new word where the expected one stands, if all the while the thread runs on this processor and no other does there: 0. Nothing
 * is stored where another word stands there: 1; nor where the thread was interrupted: -1. */
static inline int rseq_cmpeqv_storev(struct rseq *area, intptr_t *v, intptr_t expect, intptr_t newv, int cpu) {
    asm goto(RSEQ_ASM_DEFINE_TABLE(1, 2f, 3f, 4f)
             RSEQ_ASM_STORE_RSEQ_CS(2, 1b, rseq_cs)
             RSEQ_ASM_OP_CMPEQ32(current_cpu_id, cpu_id, 4f)
             RSEQ_ASM_OP_CMPEQ(v, expect, cmpfail)
             COMMIT_OF_STOREV
             RSEQ_ASM_DEFINE_ABORT(4, abort)
             : /* asm goto has no outputs */
             : [rseq_cs] "m"(area->rseq_cs), [current_cpu_id] "m"(area->cpu_id),
               [v] "m"(*v), [cpu_id] "r"(cpu), [expect] "r"(expect), [newv] "r"(newv)
             : "memory", "t1"
             : abort, cmpfail);
    return 0;
abort:
    return -1;
cmpfail:
    return 1;
}

#ifndef NEXT_OUTSIDE
/* Stores at `load` the address that stands at `v`, and at `v` the word that lies so many bytes behind where it points, if all the while the
 * thread runs on this processor and no other does there: 0. Nothing is stored at `v` where the word that isn't expected stands there: 1;
 * nor where the thread was interrupted: -1. */
static inline int rseq_cmpnev_storeoffp_load(struct rseq *area, intptr_t *v, intptr_t expectnot, long voffp, intptr_t *load, int cpu) {
    asm goto(RSEQ_ASM_DEFINE_TABLE(1, 2f, 3f, 4f)
             RSEQ_ASM_STORE_RSEQ_CS(2, 1b, rseq_cs)
             RSEQ_ASM_OP_CMPEQ32(current_cpu_id, cpu_id, 4f)
             RSEQ_ASM_OP_CMPNE(v, expectnot, cmpfail)
             RSEQ_ASM_OP_R_LOAD(v)
             RSEQ_ASM_OP_R_STORE(load)
             RSEQ_ASM_OP_R_LOAD_OFF(voffp)
             RSEQ_ASM_OP_R_FINAL_STORE(v, 3)
             RSEQ_ASM_DEFINE_ABORT(4, abort)
             : /* asm goto has no outputs */
             : [rseq_cs] "m"(area->rseq_cs), [current_cpu_id] "m"(area->cpu_id), [v] "m"(*v), [load] "m"(*load),
               [cpu_id] "r"(cpu), [expectnot] "r"(expectnot), [voffp] "r"(voffp)
             : "memory", "t1"
             : abort, cmpfail);
    return 0;
abort:
    return -1;
cmpfail:
    return 1;
}
#endif

/* Puts a node before the first one of the processor on which the thread runs. */
static void __attribute__((noipa)) push(struct rseq *area, struct node *node) {
    int cpu, status;
    do {
        cpu = rseq_cpu_start(area);
        struct node *head = READ_ONCE(lists[cpu].head);
        node->next = head;
        status = rseq_cmpeqv_storev(area, (intptr_t *)&lists[cpu].head, (intptr_t)head, (intptr_t)node, cpu);
    } while (status != 0);
}

/* Takes the first node of the processor on which the thread runs: NULL where there is none. */
static struct node *__attribute__((noipa)) pop(struct rseq *area) {
    struct node *head;
    int cpu, status;
    do {
        cpu = rseq_cpu_start(area);
#ifdef NEXT_OUTSIDE
        head = READ_ONCE(lists[cpu].head);
        if (head == NULL)
            return NULL;
        struct node *next = READ_ONCE(head->next);
        status = rseq_cmpeqv_storev(area, (intptr_t *)&lists[cpu].head, (intptr_t)head, (intptr_t)next, cpu);
#else
        status = rseq_cmpnev_storeoffp_load(area, (intptr_t *)&lists[cpu].head, 0, offsetof(struct node, next), (intptr_t *)&head, cpu);
        if (status > 0)
            return NULL;
#endif
    } while (status != 0);
    return head;
}

/* Takes a node, if there is one, and looks whether another thread has it. */
static struct node *take(struct rseq *area) {
    struct node *node = pop(area);
    if (node != NULL && __atomic_exchange_n(&node->is_taken, 1, __ATOMIC_RELAXED) != 0)
        __atomic_fetch_add(&taken_twice, 1, __ATOMIC_RELAXED);
    return node;
}

/* Gives a node back, if it is one. */
static void give(struct rseq *area, struct node *node) {
    if (node == NULL)
        return;
    node->is_taken = 0;
    push(area, node);
}

/* Puts the thread's own nodes in, and then takes two and gives both back, many times. */
static void take_and_give(void *own) {
    struct owner *owner = own;
    struct rseq *area = &owner->area;
    if (rseq_register(area) != 0) {
        write_text("rseq isn't there\n");
        call(CALL_EXIT_GROUP, 2, 0, 0, 0);
    }
    for (int number = 0; number < OWN_NODES; number++)
        give(area, &owner->nodes[number]);
    for (int round = 0; round < ROUNDS; round++) {
        struct node *first = take(area), *second = take(area);
        give(area, first);
        give(area, second);
    }
    rseq_unregister(area);
}

/* Takes all nodes of a list, up to one that was taken already: how many they are. */
static uint64_t take_list(struct node *head) {
    uint64_t count = 0;
    for (struct node *node = head; node != NULL; node = node->next) {
        if (node->is_taken) {
            taken_twice++;
            break;
        }
        node->is_taken = 1;
        count++;
    }
    return count;
}

/* Takes all nodes that are in lists: how many they are. It brings the lists together first that aren't empty, so that its steps are the
 * same on whichever processor the threads ran. */
static uint64_t take_all(void) {
    struct node *heads[PROCESSORS];
    int full = 0;
    for (int cpu = 0; cpu < PROCESSORS; cpu++) {
        heads[full] = lists[cpu].head;
        full += lists[cpu].head != NULL;
    }
    uint64_t count = 0;
    for (int number = 0; number < full; number++)
        count += take_list(heads[number]);
    return count;
}

int main(void) {
    for (int number = 0; number < THREADS; number++)
        start_thread(&owners[number].thread, take_and_give, &owners[number]);
    for (int number = 0; number < THREADS; number++)
        join_thread(&owners[number].thread);
    uint64_t count = take_all();
    int is_right = count == THREADS * OWN_NODES && taken_twice == 0;
    write_line(is_right ? "nodes " : "a node is lost, or was taken twice: nodes ", count);
    return is_right ? 0 : 1;
}
