/* A position of two coordinates under a sequence lock: a writer makes the sequence odd, stores both, and makes it even again. A reader
 * loads the sequence, the coordinates, and the sequence once more; it has read one position where the sequence is even and hasn't
 * changed. A second writer competes for the lock by compare and exchange. Built with -DWRONG a reader only asks whether the sequence has
 * changed. Where it begins and ends while a writer is between the two stores, the sequence is odd both times, and the coordinates are of
 * two positions. */
#include "check.h"
#include "threads.h"

enum { WRITES = 2, READS = 2 };

static struct {
    uint32_t sequence;
    uint32_t x, y; /* y is always x + OFFSET */
} position = {0, 0, 100};

enum { OFFSET = 100 };

static struct thread reader, writer;

/* Makes the sequence odd, where no other writer has done so: what it was. */
static uint32_t write_begin(void) {
    uint32_t sequence = __atomic_load_n(&position.sequence, __ATOMIC_RELAXED);
    for (;;) {
        if (sequence % 2 != 0) {
            call(CALL_SCHED_YIELD, 0, 0, 0, 0);
            sequence = __atomic_load_n(&position.sequence, __ATOMIC_RELAXED);
        } else if (__atomic_compare_exchange_n(&position.sequence, &sequence, sequence + 1, 1, __ATOMIC_ACQUIRE, __ATOMIC_RELAXED)) {
            return sequence;
        }
    }
}

static void write_end(uint32_t sequence) {
    __atomic_store_n(&position.sequence, sequence + 2, __ATOMIC_RELEASE);
}

/* Moves by a distance along both axes. */
static void __attribute__((noipa)) move(uint32_t distance) {
    uint32_t sequence = write_begin();
    uint32_t x = __atomic_load_n(&position.x, __ATOMIC_RELAXED);
    __atomic_store_n(&position.x, x + distance, __ATOMIC_RELAXED);
    __atomic_store_n(&position.y, x + distance + OFFSET, __ATOMIC_RELAXED);
    write_end(sequence);
}

/* The sequence at the beginning of a read. */
static uint32_t read_begin(void) {
    uint32_t sequence = __atomic_load_n(&position.sequence, __ATOMIC_ACQUIRE);
#ifndef WRONG
    while (sequence % 2 != 0) {
        call(CALL_SCHED_YIELD, 0, 0, 0, 0);
        sequence = __atomic_load_n(&position.sequence, __ATOMIC_ACQUIRE);
    }
#endif
    return sequence;
}

/* Whether the sequence has changed since, so that the read is to be made again. */
static int read_retry(uint32_t sequence) {
    __atomic_thread_fence(__ATOMIC_ACQUIRE);
    return __atomic_load_n(&position.sequence, __ATOMIC_RELAXED) != sequence;
}

/* Reads the position: both coordinates are of the same one. */
static void __attribute__((noipa)) read_position(void) {
    uint32_t sequence, x, y;
    do {
        sequence = read_begin();
        x = __atomic_load_n(&position.x, __ATOMIC_RELAXED);
        y = __atomic_load_n(&position.y, __ATOMIC_RELAXED);
    } while (read_retry(sequence));
    check(y, ==, x + OFFSET);
}

static void read_often(void *unused) {
    (void)unused;
    for (int at = 0; at < READS; at++)
        read_position();
}

static void write_often(void *distance) {
    for (int at = 0; at < WRITES; at++)
        move((uintptr_t)distance);
}

int main(void) {
    start_thread(&reader, read_often, NULL);
    start_thread(&writer, write_often, (void *)1);
    write_often((void *)10);
    join_thread(&reader);
    join_thread(&writer);
    check(position.x, ==, 11u * WRITES);
    write_line("x ", position.x);
    write_line("y ", position.y);
    return 0;
}
