/* A work-stealing deque (Chase and Lev): the owner puts items in at the bottom and takes them there, and a thief steals them at the top. As
 * long as more than one item is there, the owner needs neither LR nor SC: it stores that the last item isn't there any more, and then loads
 * where the items begin. Between the two is a fence. Built with -DPLAIN, it isn't there. Then the thief may see the old bottom while the
 * owner sees the old top, and both take the same item. */
#include "../common/threads.h"
#include "../common/barriers.h"

enum { ITEMS = 4, TRIES = 5, NONE = -1 };

static struct thread thief;

/* The items that are there are those from `top` up to before `bottom`. */
static volatile long items[ITEMS], top, bottom;

/* How often each side had each item. */
static uint32_t had_by_owner[ITEMS], had_by_thief[ITEMS];

/* Makes `top` one more where it still is this: whether it was. */
static int advance_top(long was) {
    return __atomic_compare_exchange_n(&top, &was, was + 1, 0, __ATOMIC_SEQ_CST, __ATOMIC_SEQ_CST);
}

/* The owner puts an item in. */
static void __attribute__((noipa)) push(long item) {
    long end = bottom;
    items[end] = item;
    bottom = end + 1;
}

/* What stands between the owner's store of the bottom and its load of the top. */
static inline void between(void) {
#ifdef PLAIN
    compiler_barrier();
#else
    own_fence();
#endif
}

/* The owner takes the last item: NONE where there is none. For the only one it competes with the thief. */
static long __attribute__((noipa)) take(void) {
    long last = bottom - 1;
    bottom = last;
    between();
    long first = top;
    if (first < last)
        return items[last];
    long item = first == last && advance_top(first) ? items[last] : NONE;
    bottom = last + 1;
    return item;
}

/* The thief takes the first item: NONE where there is none, or the owner was faster. */
static long __attribute__((noipa)) steal(void) {
    long first = top;
    if (first >= bottom)
        return NONE;
    long item = items[first];
    return advance_top(first) ? item : NONE;
}

static void steal_often(void *unused) {
    (void)unused;
    for (int number = 0; number < TRIES; number++) {
        long item = steal();
        if (item != NONE)
            had_by_thief[item]++;
    }
}

/* Takes items until none is there. */
static void take_all(void) {
    long item;
    while ((item = take()) != NONE)
        had_by_owner[item]++;
}

int main(void) {
    for (long item = 0; item < ITEMS; item++)
        push(item);
    start_thread(&thief, steal_often, NULL);
    take_all();
    join_thread(&thief);
    uint64_t wrong = 0;
    for (int item = 0; item < ITEMS; item++)
        wrong += had_by_owner[item] + had_by_thief[item] != 1;
    write_line(wrong == 0 ? "items " : "taken twice: ", wrong == 0 ? ITEMS : wrong);
    return wrong != 0;
}
