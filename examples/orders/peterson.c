/* Peterson's lock without a fence, as examples/peterson, in three spellings of the same loads and stores: volatile (-DVOLATILE), the
 * builtins of GCC (no option), and <stdatomic.h> (-DSTDATOMIC). Both threads may be inside, and then an addition is lost. */
#include "../common/threads.h"

#if defined VOLATILE
#define WORD volatile uint32_t
#define STORE(word, value) ((word) = (value))
#define LOAD(word) (word)
#elif defined STDATOMIC
#include <stdatomic.h>
#define WORD atomic_uint
#define STORE(word, value) atomic_store_explicit(&(word), value, memory_order_release)
#define LOAD(word) atomic_load_explicit(&(word), memory_order_acquire)
#else
#define WORD uint32_t
#define STORE(word, value) __atomic_store_n(&(word), value, __ATOMIC_RELEASE)
#define LOAD(word) __atomic_load_n(&(word), __ATOMIC_ACQUIRE)
#endif

enum { MAIN, OTHER };

static struct thread other;
static WORD wants[2], turn;
static uint32_t count;

/* Says that this side wants the lock, lets the other go first, and waits while the other wants it and may go first. */
static void __attribute__((noipa)) take(uint32_t me) {
    STORE(wants[me], 1);
    STORE(turn, !me);
    while (LOAD(wants[!me]) && LOAD(turn) != me)
        continue;
}

static void __attribute__((noipa)) give(uint32_t me) {
    STORE(wants[me], 0);
}

static void __attribute__((noipa)) add(void) {
    count = count + 1;
}

static void run_other(void *unused) {
    (void)unused;
    take(OTHER);
    add();
    give(OTHER);
}

int main(void) {
    start_thread(&other, run_other, NULL);
    take(MAIN);
    add();
    give(MAIN);
    join_thread(&other);
    write_text(count == 2 ? "count 2\n" : "count 1: an addition is lost\n");
    return count == 2 ? 0 : 1;
}
