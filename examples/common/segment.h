/* What two programs have in common that `pair` runs as two processes: a segment of memory, and a barrier over both by membarrier(2). */
#pragma once
#include "barriers.h"

/* The segment: zeros at the start. For the kernel no page lies there: a call that reads or writes there, as a wait by futex, is EFAULT. */
#define SEGMENT 0x3ffff80000
#define SEGMENT_BYTES 0x10000

/* A barrier that is about the processors of each process that has registered for it. The caller needn't have. */
enum { MEMBARRIER_CMD_GLOBAL_EXPEDITED = 2, MEMBARRIER_CMD_REGISTER_GLOBAL_EXPEDITED = 4 };
