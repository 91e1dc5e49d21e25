# THREADS threads that compute for ever, each over 64 bytes of its own, and let the next one run after every 16 rounds.
    .equ    CLONE_THREAD, 0x10f00       # CLONE_VM, CLONE_FS, CLONE_FILES, CLONE_SIGHAND and CLONE_THREAD
    .equ    ROUNDS, 16

    .bss
    .balign 64
own:
    .space  64 * THREADS

    .text
    .option norelax                     # gp isn't set, so no address may be taken relative to it
    .globl  _start
_start:
    lla     s0, own
    li      s1, THREADS - 1
more:
    beqz    s1, turn
    li      a0, CLONE_THREAD
    li      a1, 0                       # the child has its parent's sp, which nobody uses
    li      a7, 220                     # clone
    ecall
    beqz    a0, turn
    addi    s0, s0, 64
    addi    s1, s1, -1
    j       more

turn:
    li      s2, ROUNDS
round:
    ld      t0, 0(s0)
    addi    t0, t0, 1
    sd      t0, 0(s0)
    ld      t1, 8(s0)
    slli    t2, t1, 13
    xor     t1, t1, t2
    srli    t2, t1, 7
    xor     t1, t1, t2
    mul     t2, t1, t0
    add     t1, t1, t2
    sd      t1, 8(s0)
    addi    s2, s2, -1
    bnez    s2, round
    li      a7, 124                     # sched_yield
    ecall
    j       turn
