/* Four threads add to one total under a mutex, and their parent joins them and prints it. */
#include "../common/threads.h"

enum { THREADS = 4, ROUNDS = 100, ROUNDS_PER_YIELD = 10 };

/* A mutex: nobody has it; a thread has it; or a thread has it and others may sleep. */
enum { FREE, TAKEN, CONTENDED };

static struct thread threads[THREADS];
static uint32_t mutex;
static uint64_t total;

/* Where the word is `wanted` it becomes `next`; answers what it was. LR and SC are tried again until SC
 * succeeds. */
static uint32_t compare_and_swap(uint32_t *word, uint32_t wanted, uint32_t next) {
    long was, failed;
    asm volatile("1: lr.w.aq %0, (%2)\n"
                 "   bne %0, %3, 2f\n"
                 "   sc.w.rl %1, %4, (%2)\n"
                 "   bnez %1, 1b\n"
                 "2:"
                 : "=&r"(was), "=&r"(failed)
                 : "r"(word), "r"((long)wanted), "r"(next)
                 : "memory");
    return was;
}

/* Takes the mutex. One who has slept can't know whether others sleep still, and so takes it as contended. */
static void lock(uint32_t *word) {
    if (compare_and_swap(word, FREE, TAKEN) == FREE)
        return;
    while (__atomic_exchange_n(word, CONTENDED, __ATOMIC_ACQUIRE) != FREE)
        futex_wait(word, CONTENDED, FUTEX_PRIVATE);
}

/* Gives the mutex back, and wakes one who may sleep. */
static void unlock(uint32_t *word) {
    if (__atomic_exchange_n(word, FREE, __ATOMIC_RELEASE) == CONTENDED)
        futex_wake(word, FUTEX_PRIVATE);
}

/* Adds its number to the total many times. Now and then it gives up its hart while it has the mutex, and
 * others go to sleep. */
static void add(void *number) {
    for (int round = 1; round <= ROUNDS; round++) {
        lock(&mutex);
        total += (uint64_t)number;
        if (round % ROUNDS_PER_YIELD == 0)
            call(CALL_SCHED_YIELD, 0, 0, 0, 0);
        unlock(&mutex);
    }
}

int main(void) {
    for (long number = 1; number <= THREADS; number++)
        start_thread(&threads[number - 1], add, (void *)number);
    for (int number = 0; number < THREADS; number++)
        join_thread(&threads[number]);
    write_line("total ", total);
    call(CALL_EXIT_GROUP, 0, 0, 0, 0);
    return 1; /* exit_group doesn't come back */
}
