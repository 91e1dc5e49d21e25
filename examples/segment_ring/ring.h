/* A ring in the segment of two processes, of which one puts items in and the other takes them out. */
#pragma once
#include "../common/segment.h"

enum { PLACES = 4 };

/* Each side stores to its own words alone, and each side's words stand in a cache line of their own. */
struct ring {
    _Alignas(64) volatile uint64_t tail; /* the producer's: how many items were put */
    volatile uint64_t items[PLACES];
    _Alignas(64) volatile uint64_t head; /* the consumer's: how many were taken */
    volatile uint64_t closing;           /* it looks for the last time */
    volatile uint64_t closed;            /* it has left, and `head` stays as it is */
};

_Static_assert(sizeof(struct ring) <= SEGMENT_BYTES, "the ring fits the segment");

#define RING ((struct ring *)SEGMENT)

static inline void yield(void) {
    call(CALL_SCHED_YIELD, 0, 0, 0, 0);
}
