/* The producer of a ring between two processes (consumer.c is the other one). It puts items in often, and so without a fence: it stores
 * the item and the tail, and then loads whether the consumer is leaving. An item that it put while that wasn't so is the consumer's, and
 * the producer forgets it. Else it waits until the consumer has left, and keeps what that one didn't take.
 *
 * Its two stores may still wait in the buffer of its processor when it loads. The consumer's barrier brings them into memory before the
 * consumer looks for the last time, if this process has registered for that. Built with -DUNREGISTERED it hasn't: then each may miss the
 * other's store, and an item is lost, which the producer forgets and the consumer never sees. */
#include "ring.h"

enum { ITEMS = 2 };

/* Puts an item into the ring, in which there is room. Whether the consumer will take it. */
static int __attribute__((noipa)) put(uint64_t item) {
    uint64_t tail = RING->tail;
    RING->items[tail % PLACES] = item;
    compiler_barrier(); /* (the stores of a processor enter memory in their order) */
    RING->tail = tail + 1;
    compiler_barrier();
    return !RING->closing;
}

int main(void) {
#ifndef UNREGISTERED
    if (membarrier(MEMBARRIER_CMD_REGISTER_GLOBAL_EXPEDITED, 0, 0) != 0)
        return 2;
#endif
    int are_taken = 1;
    for (uint64_t item = 1; item <= ITEMS && are_taken; item++)
        are_taken = put(item);
    while (!RING->closed)
        yield();
    uint64_t left = RING->tail - RING->head;
    int are_lost = are_taken && left != 0;
    write_line(are_lost ? "items are lost: " : "kept ", left);
    return are_lost;
}
