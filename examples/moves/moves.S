# Stores a number, adds one to it by LR and SC, tried again until SC succeeds, and prints how many tries that took. On one hart it
# is one. A thread that is moved to another hart between LR and SC needs one more.
    .file   "moves.S"
    .data
number:
    .dword  0
message:
    .ascii  "tries "
digit:
    .ascii  "?\n"
    .equ    LENGTH, . - message

    .text
    .option norelax             # gp isn't set, so no address may be taken relative to it
    .globl  _start
_start:
    lla     s0, number
    li      t0, 7
    sd      t0, 0(s0)           # waits in the hart's store buffer
    li      s1, '0'
try:
    addi    s1, s1, 1
    lr.d    t0, (s0)
    addi    t0, t0, 1
    sc.d    t1, t0, (s0)
    bnez    t1, try
    lla     t0, digit
    sb      s1, 0(t0)
    li      a0, 1               # standard output
    lla     a1, message
    li      a2, LENGTH
    li      a7, 64              # write
    ecall
    li      a0, 0
    li      a7, 93              # exit
    ecall
