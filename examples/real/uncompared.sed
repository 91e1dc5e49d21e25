# rseq-riscv.h of Linux's self-tests: a restartable sequence no longer begins with the look whether its thread still runs on the processor
# whose data it works on.
s/^\tRSEQ_ASM_OP_CMPEQ32\(current_cpu_id, cpu_id, label\)$/\t""/
