/* Peterson's lock: two threads each take it once and add 1 to a count. Without a fence between the stores and the
 * load of `take`, both may be inside, and then an addition is lost. */
#include "../common/threads.h"

#ifdef FENCED
#define BETWEEN asm volatile("fence rw, rw" : : : "memory")
#else
#define BETWEEN asm volatile("" : : : "memory")
#endif

enum { MAIN, OTHER };

static struct thread other;
static volatile uint32_t wants[2], turn;
static volatile uint32_t count;

/* Says that this side wants the lock, lets the other go first, and waits while the other wants it and may go first. */
static void __attribute__((noinline)) take(uint32_t me) {
    wants[me] = 1;
    turn = !me;
    BETWEEN;
    while (wants[!me] && turn != me)
        continue;
}

static void __attribute__((noinline)) give(uint32_t me) {
    wants[me] = 0;
}

static void __attribute__((noinline)) add(void) {
    count = count + 1;
}

static void run_other(void *unused) {
    (void)unused;
    take(OTHER);
    add();
    give(OTHER);
}

int main(void) {
    start_thread(&other, run_other, NULL);
    take(MAIN);
    add();
    give(MAIN);
    join_thread(&other);
    write_text(count == 2 ? "count 2\n" : "count 1: an addition is lost\n");
    return count == 2 ? 0 : 1;
}
