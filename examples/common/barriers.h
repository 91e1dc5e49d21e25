#pragma once /* Barriers by membarrier(2), for the C examples, with the names of linux/membarrier.h. */
#include "threads.h"
enum { CALL_MEMBARRIER = 283 };

enum { MEMBARRIER_CMD_PRIVATE_EXPEDITED = 8, MEMBARRIER_CMD_REGISTER_PRIVATE_EXPEDITED = 16 };

/* membarrier(2): an answer of the command (0 for these two), or a negative error number. */
static inline long membarrier(int cmd, unsigned flags, int cpu_id) {
    return call(CALL_MEMBARRIER, cmd, flags, cpu_id, 0);
}

/* A place over which the compiler moves no load and no store. It makes no instruction. */
static inline void compiler_barrier(void) {
    asm volatile("" : : : "memory");
}

/* A fence of the thread that executes it: its own stores before it enter memory before its loads behind it. It does nothing for others. */
static inline void own_fence(void) {
    asm volatile("fence rw, rw" : : : "memory");
}
