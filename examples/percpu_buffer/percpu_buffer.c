/* The operations of librseq that aren't in the other examples: a buffer of items for each processor. Three threads each put items in and
 * take items out. Each item has a header of 12 bytes. `put` copies the header and then stores the count; `take` compares the count and the
 * item at the top, and stores the count; and each counts what it did in the cell of its processor. Nothing is lost, and nothing is taken
 * twice: the sum of what was taken and of what is left is the sum of what was put in. */
#include "../common/rseq_operations.h"

enum { THREADS = 3, ROUNDS = 4, ROOM = THREADS * ROUNDS, HEADER = 12, PROCESSORS = 8, CACHE_LINE = 64 };

static struct buffer {
    _Alignas(CACHE_LINE) intptr_t count;
    intptr_t items[ROOM];
    char headers[ROOM][HEADER];
    intptr_t puts, takes;
} buffers[PROCESSORS];

/* Where the takes of each buffer are counted. */
static intptr_t *counters[PROCESSORS];

static struct owner {
    struct thread thread;
    struct rseq area;
    intptr_t first, taken;
} owners[THREADS];

/* Puts an item on top of the buffer of the processor on which the thread runs. */
static void __attribute__((noipa)) put(struct rseq *area, intptr_t item) {
    int cpu, status;
    do {
        cpu = rseq_cpu_start(area);
        struct buffer *buffer = &buffers[cpu];
        intptr_t count = __atomic_load_n(&buffer->count, __ATOMIC_RELAXED);
        status = rseq_cmpeqv_trymemcpy_storev(area, &buffer->puts, buffer->puts, buffer->headers[count], "twelve bytes", HEADER,
                                              buffer->puts, cpu);
        if (status == 0)
            status = rseq_cmpeqv_trystorev_storev(area, &buffer->count, count, &buffer->items[count], item, count + 1, cpu);
    } while (status != 0);
    do
        cpu = rseq_cpu_start(area);
    while (rseq_addv(area, &buffers[cpu].puts, 1, cpu) != 0);
}

/* Takes the item on top of the buffer of the processor on which the thread runs: 0 where there is none. */
static intptr_t __attribute__((noipa)) take(struct rseq *area) {
    int cpu, status;
    intptr_t item;
    do {
        cpu = rseq_cpu_start(area);
        struct buffer *buffer = &buffers[cpu];
        intptr_t count = __atomic_load_n(&buffer->count, __ATOMIC_RELAXED);
        if (count == 0)
            return 0;
        item = __atomic_load_n(&buffer->items[count - 1], __ATOMIC_RELAXED);
        status = rseq_cmpeqv_cmpeqv_storev(area, &buffer->count, count, &buffer->items[count - 1], item, count - 1, cpu);
    } while (status != 0);
    do
        cpu = rseq_cpu_start(area);
    while (rseq_offset_deref_addv(area, (intptr_t *)counters, cpu * sizeof *counters, 1, cpu) != 0);
    return item;
}

/* Puts in items of its own, and takes one out after every second. */
static void put_and_take(void *own) {
    struct owner *owner = own;
    if (rseq_register(&owner->area) != 0) {
        write_text("rseq isn't there\n");
        call(CALL_EXIT_GROUP, 2, 0, 0, 0);
    }
    for (int round = 0; round < ROUNDS; round++) {
        put(&owner->area, owner->first + round);
        if (round % 2 == 1)
            owner->taken += take(&owner->area);
    }
    rseq_unregister(&owner->area);
}

/* The buffers that were used: how many they are. Its steps are the same on whichever processors the threads ran. */
static int used_buffers(struct buffer **used) {
    int full = 0;
    for (int cpu = 0; cpu < PROCESSORS; cpu++) {
        used[full] = &buffers[cpu];
        full += (buffers[cpu].count | buffers[cpu].puts | buffers[cpu].takes) != 0;
    }
    return full;
}

int main(void) {
    intptr_t sum = 0, puts = 0, left = 0, takes = 0;
    for (int cpu = 0; cpu < PROCESSORS; cpu++)
        counters[cpu] = &buffers[cpu].takes;
    for (int number = 0; number < THREADS; number++) {
        owners[number].first = 1 + number * ROUNDS;
        start_thread(&owners[number].thread, put_and_take, &owners[number]);
    }
    for (int number = 0; number < THREADS; number++) {
        join_thread(&owners[number].thread);
        sum += owners[number].taken;
    }
    struct buffer *used[PROCESSORS];
    int full = used_buffers(used);
    for (int number = 0; number < full; number++) {
        for (int at = 0; at < used[number]->count; at++)
            sum += used[number]->items[at];
        puts += used[number]->puts;
        left += used[number]->count;
        takes += used[number]->takes;
    }
    int is_right = sum == ROOM * (ROOM + 1) / 2 && puts == ROOM && left + takes == ROOM;
    write_line(is_right ? "sum " : "an item is lost, or was taken twice: sum ", sum);
    return is_right ? 0 : 1;
}
