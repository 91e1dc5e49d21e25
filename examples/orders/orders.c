/* Five litmus tests of two threads: which orders of C11 forbid what. Built with -DSB, -DMP, -DLB, -DWW or -DR for the test, with -DORDER=0
 * (relaxed), 1 (release and acquire) or 2 (seq_cst), and with -DSTDATOMIC where the names are those of <stdatomic.h>. A memory of Ztso shows
 * only what a late store shows: SB and R, but not with seq_cst.
 *
 *     SB   x = 1; left = y     y = 1; right = x     0 0 where both stores are late
 *     MP   x = 1; y = 1        left = y; right = x  never 1 0
 *     LB   left = x; y = 1     right = y; x = 1     never 1 1
 *     WW   x = 1; y = 2        y = 1; x = 2         never 1 1 at the end (2+2W)
 *     R    x = 1; y = 1        y = 2; right = x     2 0 at the end where the store to y is late */
#include "../common/threads.h"

#if ORDER == 0
#define STORE_ORDER __ATOMIC_RELAXED
#define LOAD_ORDER __ATOMIC_RELAXED
#elif ORDER == 1
#define STORE_ORDER __ATOMIC_RELEASE
#define LOAD_ORDER __ATOMIC_ACQUIRE
#else
#define STORE_ORDER __ATOMIC_SEQ_CST
#define LOAD_ORDER __ATOMIC_SEQ_CST
#endif

#ifdef STDATOMIC
#include <stdatomic.h>
static atomic_uint x, y;
#define STORE(word, value) atomic_store_explicit(&word, value, STORE_ORDER)
#define LOAD(word) atomic_load_explicit(&word, LOAD_ORDER)
#else
static uint32_t x, y;
#define STORE(word, value) __atomic_store_n(&word, value, STORE_ORDER)
#define LOAD(word) __atomic_load_n(&word, LOAD_ORDER)
#endif

static struct thread other;
static uint32_t left, right;

static void run_left(void) {
#if defined SB
    STORE(x, 1);
    left = LOAD(y);
#elif defined LB
    left = LOAD(x);
    STORE(y, 1);
#elif defined WW
    STORE(x, 1);
    STORE(y, 2);
#else
    STORE(x, 1);
    STORE(y, 1);
#endif
}

static void run_right(void *unused) {
    (void)unused;
#if defined SB
    STORE(y, 1);
    right = LOAD(x);
#elif defined MP
    left = LOAD(y);
    right = LOAD(x);
#elif defined LB
    right = LOAD(y);
    STORE(x, 1);
#elif defined WW
    STORE(y, 1);
    STORE(x, 2);
#else
    STORE(y, 2);
    right = LOAD(x);
#endif
}

int main(void) {
    start_thread(&other, run_right, NULL);
    run_left();
    join_thread(&other);
#if defined WW
    left = LOAD(x);
    right = LOAD(y);
#elif defined R
    left = LOAD(y);
#endif
    write_line("", left);
    write_line("", right);
    return 0;
}
