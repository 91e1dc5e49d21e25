# The entry of the C examples: main is given the words that stand at sp when a program starts (argc, argv, environment,
# auxiliary vector), and what it answers is the exit status.
    .file   "start.S"
    .globl  _start
_start:
    .option push
    .option norelax
    la      gp, __global_pointer$
    .option pop
    mv      a0, sp
    andi    sp, sp, -16
    call    main
    li      a7, 93              # exit
    ecall
