/* A counter with a cell for each processor. Four threads add to it, each to the cell of the processor on which it runs, by a restartable
 * sequence: a thread that is preempted between the load and the store of a cell goes on at the abort handler, and tries again. Their
 * parent joins them and adds up the cells. Built with -DPLAIN, the same without a sequence: then additions may be lost. */
#include "../common/rseq.h"

#ifndef ROUNDS
#define ROUNDS 20
#endif
#ifndef THREADS /* the small twins are given these by -D */
enum { THREADS = 4, PROCESSORS = 8, CACHE_LINE = 64 };
#endif
static struct {
    _Alignas(CACHE_LINE) intptr_t count;
} cells[PROCESSORS];

static struct {
    struct thread thread;
    struct rseq area;
} adders[THREADS];

#ifdef PLAIN
/* Adds to a word, wherever the thread runs by then: always 0. */
static int __attribute__((noipa)) addv(struct rseq *area, intptr_t *v, intptr_t count, int cpu) {
    (void)area, (void)cpu;
    *v += count;
    return 0;
}
#else
/* Adds to a word, if all the while the thread runs on this processor and no other does there: 0, or -1 where nothing was added. */
static int __attribute__((noipa)) addv(struct rseq *area, intptr_t *v, intptr_t count, int cpu) {
    asm goto(RSEQ_ASM_DEFINE_TABLE(1, 2f, 3f, 4f)
             RSEQ_ASM_STORE_RSEQ_CS(2, 1b, rseq_cs)
             RSEQ_ASM_OP_CMPEQ32(current_cpu_id, cpu_id, 4f)
             RSEQ_ASM_OP_R_LOAD(v)
             RSEQ_ASM_OP_R_ADD(count)
             RSEQ_ASM_OP_R_FINAL_STORE(v, 3)
             RSEQ_ASM_DEFINE_ABORT(4, abort)
             : /* asm goto has no outputs */
             : [rseq_cs] "m"(area->rseq_cs), [current_cpu_id] "m"(area->cpu_id),
               [v] "m"(*v), [cpu_id] "r"(cpu), [count] "r"(count)
             : "memory", "t1"
             : abort);
    return 0;
abort:
    return -1;
}
#endif

/* Adds 1 to the cell of the processor on which the thread runs. */
static void add_one(struct rseq *area) {
    int cpu, status;
    do {
        cpu = rseq_cpu_start(area);
        status = addv(area, &cells[cpu].count, 1, cpu);
    } while (status != 0);
}

/* Adds 1 many times, with the area of its own thread. */
static void add(void *own) {
    struct rseq *area = own;
    if (rseq_register(area) != 0) {
        write_text("rseq isn't there\n");
        call(CALL_EXIT_GROUP, 2, 0, 0, 0);
    }
    for (int round = 0; round < ROUNDS; round++)
        add_one(area);
    rseq_unregister(area);
}

int main(void) {
    for (int number = 0; number < THREADS; number++)
        start_thread(&adders[number].thread, add, &adders[number].area);
    for (int number = 0; number < THREADS; number++)
        join_thread(&adders[number].thread);
    intptr_t total = 0;
    for (int cpu = 0; cpu < PROCESSORS; cpu++)
        total += cells[cpu].count;
    write_line(total == THREADS * ROUNDS ? "total " : "additions are lost: total ", total);
    return total == THREADS * ROUNDS ? 0 : 1;
}
