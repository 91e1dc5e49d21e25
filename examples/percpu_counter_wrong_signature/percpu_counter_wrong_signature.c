/* `percpu_counter` with the signature of another architecture, x86, before its abort handler, as code has it that was copied from there:
 * the area is registered with that of RISC-V. As long as nobody is interrupted inside the sequence, nothing comes of it. */
#include "../common/rseq.h"

#undef RSEQ_SIG
#define RSEQ_SIG 0x53053053
#include "../percpu_counter/percpu_counter.c"
