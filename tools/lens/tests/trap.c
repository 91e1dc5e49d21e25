/* Two threads go in and out of a place, and each says that it isn't alone there by __builtin_trap(). The additions
 * are AMOs, so no store waits where a thread stands between them. */
#include "../../../examples/common/threads.h"

static struct thread other;
static int inside;

static void work(void *unused) {
    (void)unused;
    for (int at = 0; at < 3; at++) {
        if (__atomic_add_fetch(&inside, 1, __ATOMIC_RELAXED) != 1)
            __builtin_trap();
        __atomic_sub_fetch(&inside, 1, __ATOMIC_RELAXED);
    }
}

int main(void) {
    start_thread(&other, work, NULL);
    work(NULL);
    join_thread(&other);
    return 0;
}
