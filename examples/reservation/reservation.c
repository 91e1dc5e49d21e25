/* One thread adds 1 to a word by a single LR and SC, and another stores to the word. SC fails where the
 * other's store enters memory between the two. */
#include "../common/threads.h"

static struct thread other;
static volatile uint32_t word = 1;

static void run_other(void *unused) {
    (void)unused;
    word = 10;
}

/* Adds 1 to the word, once: 0 where SC stored it, 1 where it failed. */
static uint64_t try_to_add_one(volatile uint32_t *word) {
    uint64_t was, failed;
    asm volatile("lr.w %0, (%2)\n"
                 "   addi %0, %0, 1\n"
                 "   sc.w %1, %0, (%2)"
                 : "=&r"(was), "=&r"(failed)
                 : "r"(word)
                 : "memory");
    return failed;
}

int main(void) {
    start_thread(&other, run_other, NULL);
    uint64_t failed = try_to_add_one(&word);
    join_thread(&other);
    write_line("SC failed ", failed);
    write_line("word ", word);
    return 0;
}
