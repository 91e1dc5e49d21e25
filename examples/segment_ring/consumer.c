/* The consumer of a ring between two processes (producer.c is the other one). It takes what there is, and where it finds nothing it
 * leaves. That is seldom, and so it is the side that pays: it stores that it is leaving, makes a barrier over all processes that have
 * registered for it, and looks for the last time. Whoever put an item without seeing that store had stored the item before the barrier
 * returned, so the last look finds it. */
#include "ring.h"

/* Takes all items that are in the ring, and shows each. */
static void __attribute__((noipa)) take_all(void) {
    for (uint64_t head = RING->head; head != RING->tail; RING->head = ++head)
        write_line("item ", RING->items[head % PLACES]);
}

int main(void) {
    take_all();
    RING->closing = 1;
    if (membarrier(MEMBARRIER_CMD_GLOBAL_EXPEDITED, 0, 0) != 0)
        return 2;
    take_all();
    RING->closed = 1;
    return 0;
}
