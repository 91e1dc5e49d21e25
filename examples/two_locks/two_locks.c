/* Two spin locks, of which two threads each take both and add 1 to a count. Both take them in the same order. With CROSSED the second
 * thread takes them in the opposite order: then each may have one and wait for the other's, for ever. */
#include "../common/threads.h"

enum { MAIN, OTHER };

static struct thread other;
static uint32_t locks[2];
static volatile uint32_t count;

static void __attribute__((noinline)) take(uint32_t *lock) {
    while (__atomic_exchange_n(lock, 1, __ATOMIC_ACQUIRE))
        continue;
}

static void give(uint32_t *lock) {
    __atomic_store_n(lock, 0, __ATOMIC_RELEASE);
}

static void __attribute__((noinline)) add(uint32_t first, uint32_t second) {
    take(&locks[first]);
    take(&locks[second]);
    count = count + 1;
    give(&locks[second]);
    give(&locks[first]);
}

static void run_other(void *unused) {
    (void)unused;
#ifdef CROSSED
    add(1, 0);
#else
    add(0, 1);
#endif
}

int main(void) {
    start_thread(&other, run_other, NULL);
    add(0, 1);
    join_thread(&other);
    write_text(count == 2 ? "count 2\n" : "count 1: an addition is lost\n");
    return count == 2 ? 0 : 1;
}
