/* A counter with a cell for each processor, to which a thread adds, and so does its handler of SIGUSR1. Only this thread adds, so no other
 * one can come between, on whichever processor it goes on; but the handler can. Each adds by one instruction (AMOADD), behind which no
 * addition is lost. Built with -DPLAIN, each adds by a load, an add and a store. Where the signal comes between the thread's load and its
 * store, the handler's addition is lost. */
#include "../common/rseq.h"
#include "../common/signals.h"

enum { ROUNDS = 10, SIGNALS = 3, PROCESSORS = 8, CACHE_LINE = 64 };

static struct {
    _Alignas(CACHE_LINE) intptr_t count;
} cells[PROCESSORS];

/* The thread that adds. */
static struct thread adder;
static struct rseq area;
static uint32_t handled; /* how many signals its handler has counted */

/* Adds 1 to the cell of a processor. */
static void __attribute__((noipa)) add_one(intptr_t *count) {
#ifdef PLAIN
    *count = *count + 1;
#else
    __atomic_fetch_add(count, 1, __ATOMIC_RELAXED);
#endif
}

/* Adds 1 to the cell of the processor on which the thread runs. The thread may run on another by then. */
static void add_here(void) {
    add_one(&cells[rseq_cpu_start(&area)].count);
}

/* The handler of SIGUSR1, which is masked while it runs: adds 1 too, and says so to main. */
static void count_signal(int signal, void *none, struct frame *frame) {
    (void)signal, (void)none, (void)frame;
    add_here();
    __atomic_store_n(&handled, handled + 1, __ATOMIC_RELEASE);
    futex_wake(&handled, 0);
}

/* Adds 1 many times, and then waits until it has had its signals: a signal breaks the wait. It is started with SIGUSR1 masked, until its
 * area is registered. */
static void add(void *unused) {
    (void)unused;
    if (rseq_register(&area) != 0) {
        write_text("rseq isn't there\n");
        call(CALL_EXIT_GROUP, 2, 0, 0, 0);
    }
    mask_signal(SIG_UNBLOCK, SIGUSR1);
    for (int round = 0; round < ROUNDS; round++)
        add_here();
    uint32_t before;
    while ((before = __atomic_load_n(&handled, __ATOMIC_ACQUIRE)) < SIGNALS)
        futex_wait(&handled, before, 0);
    rseq_unregister(&area);
}

/* Sends a signal to the thread that adds, and waits until its handler has run. */
static void send_one(uint32_t tid) {
    uint32_t before = __atomic_load_n(&handled, __ATOMIC_ACQUIRE);
    if (send_signal(tid, SIGUSR1) != 0)
        call(CALL_EXIT_GROUP, 3, 0, 0, 0);
    while (__atomic_load_n(&handled, __ATOMIC_ACQUIRE) == before)
        futex_wait(&handled, before, 0);
}

int main(void) {
    if (set_handler(SIGUSR1, count_signal) != 0 || mask_signal(SIG_BLOCK, SIGUSR1) != 0)
        return 3;
    start_thread(&adder, add, NULL);
    uint32_t tid = adder.tid;
    for (int number = 0; number < SIGNALS; number++)
        send_one(tid);
    join_thread(&adder);
    intptr_t total = 0;
    for (int cpu = 0; cpu < PROCESSORS; cpu++)
        total += cells[cpu].count;
    write_line(total == ROUNDS + SIGNALS ? "total " : "additions are lost: total ", total);
    return total == ROUNDS + SIGNALS ? 0 : 1;
}
