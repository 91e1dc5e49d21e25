/* A counter with a cell for each processor, to which threads add by a restartable sequence, and so does their handler of SIGUSR1. Where
 * the signal comes inside a sequence, the thread leaves it: the handler adds by a sequence of its own, and when it returns the thread
 * goes on at the abort handler of the first one, and tries again. */
#include "../common/rseq.h"
#include "../common/signals.h"

enum { THREADS = 2, ROUNDS = 10, SIGNALS = 3, PROCESSORS = 8, CACHE_LINE = 64 };

static struct {
    _Alignas(CACHE_LINE) intptr_t count;
} cells[PROCESSORS];

/* A thread that adds. Its tp points at its own. */
static struct adder {
    struct thread thread;
    struct rseq area;
    uint32_t handled; /* how many signals its handler has counted */
} adders[THREADS];

/* The one of the current thread. */
static inline struct adder *own_adder(void) {
    struct adder *own;
    asm("mv %0, tp" : "=r"(own));
    return own;
}

/* Adds to a word, if all the while the thread runs on this processor and no other does there: 0, or -1 where nothing was added. */
static int __attribute__((noipa)) addv(struct rseq *area, intptr_t *v, intptr_t count, int cpu) {
    asm goto(RSEQ_ASM_DEFINE_TABLE(1, 2f, 3f, 4f)
             RSEQ_ASM_STORE_RSEQ_CS(2, 1b, rseq_cs)
             RSEQ_ASM_OP_CMPEQ32(current_cpu_id, cpu_id, 4f)
             RSEQ_ASM_OP_R_LOAD(v)
             RSEQ_ASM_OP_R_ADD(count)
             RSEQ_ASM_OP_R_FINAL_STORE(v, 3)
             RSEQ_ASM_DEFINE_ABORT(4, abort)
             : /* asm goto has no outputs */
             : [rseq_cs] "m"(area->rseq_cs), [current_cpu_id] "m"(area->cpu_id),
               [v] "m"(*v), [cpu_id] "r"(cpu), [count] "r"(count)
             : "memory", "t1"
             : abort);
    return 0;
abort:
    return -1;
}

/* Adds 1 to the cell of the processor on which the thread runs. */
static void add_one(struct rseq *area) {
    int cpu, status;
    do {
        cpu = rseq_cpu_start(area);
        status = addv(area, &cells[cpu].count, 1, cpu);
    } while (status != 0);
}

/* The handler of SIGUSR1, which is masked while it runs: adds 1 too, and says so to who sent the signal. */
static void count_signal(int signal, void *none, struct frame *frame) {
    (void)signal, (void)none, (void)frame;
    struct adder *own = own_adder();
    add_one(&own->area);
    __atomic_store_n(&own->handled, own->handled + 1, __ATOMIC_RELEASE);
    futex_wake(&own->handled, 0);
}

/* Adds 1 many times, and then waits until it has had its signals: a signal breaks the wait. It is started with SIGUSR1 masked, until it
 * has what its handler needs. */
static void add(void *own) {
    struct adder *adder = own;
    asm volatile("mv tp, %0" : : "r"(adder));
    if (rseq_register(&adder->area) != 0) {
        write_text("rseq isn't there\n");
        call(CALL_EXIT_GROUP, 2, 0, 0, 0);
    }
    mask_signal(SIG_UNBLOCK, SIGUSR1);
    for (int round = 0; round < ROUNDS; round++)
        add_one(&adder->area);
    uint32_t handled;
    while ((handled = __atomic_load_n(&adder->handled, __ATOMIC_ACQUIRE)) < SIGNALS)
        futex_wait(&adder->handled, handled, 0);
    rseq_unregister(&adder->area);
}

/* Sends a signal to a thread, and waits until its handler has run. */
static void send_one(struct adder *adder, uint32_t tid) {
    uint32_t before = __atomic_load_n(&adder->handled, __ATOMIC_ACQUIRE);
    if (send_signal(tid, SIGUSR1) != 0)
        call(CALL_EXIT_GROUP, 3, 0, 0, 0);
    while (__atomic_load_n(&adder->handled, __ATOMIC_ACQUIRE) == before)
        futex_wait(&adder->handled, before, 0);
}

int main(void) {
    uint32_t tids[THREADS];
    if (set_handler(SIGUSR1, count_signal) != 0 || mask_signal(SIG_BLOCK, SIGUSR1) != 0)
        return 3;
    for (int number = 0; number < THREADS; number++) {
        start_thread(&adders[number].thread, add, &adders[number]);
        tids[number] = adders[number].thread.tid;
    }
    for (int round = 0; round < SIGNALS; round++)
        for (int number = 0; number < THREADS; number++)
            send_one(&adders[number], tids[number]);
    for (int number = 0; number < THREADS; number++)
        join_thread(&adders[number].thread);
    intptr_t total = 0;
    for (int cpu = 0; cpu < PROCESSORS; cpu++)
        total += cells[cpu].count;
    write_line(total == THREADS * (ROUNDS + SIGNALS) ? "total " : "additions are lost: total ", total);
    return total == THREADS * (ROUNDS + SIGNALS) ? 0 : 1;
}
