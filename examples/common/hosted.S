# The entry of a C example that is linked with a C library: as start.S, with tp on room for the variables of the thread (errno, and
# those of hosted.h), which are zero at the start. What main answers goes to _exit.
    .file   "hosted.S"
    .globl  _start
_start:
    .option push
    .option norelax
    la      gp, __global_pointer$
    .option pop
    la      tp, thread_variables
    andi    sp, sp, -16
    call    main
    call    _exit

    .bss
    .balign 16
thread_variables:
    .zero   1024                # OWN_VARIABLES of stacks.h
