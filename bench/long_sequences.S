# Eight threads that each add to 8 bytes of their own by one restartable sequence (rseq(2)) of 100,005 instructions, and then wait for ever
# in a loop of one.
    .equ    CLONE_THREAD, 0x10f00       # CLONE_VM, CLONE_FS, CLONE_FILES, CLONE_SIGHAND and CLONE_THREAD
    .equ    THREADS, 8
    .equ    ROUNDS, 50000
    .equ    SIGNATURE, 0xf1401073
    .equ    RSEQ_CS, 8                  # where the area has the pointer to the descriptor

    .bss
    .balign 128
own:
    .space  128 * THREADS               # of each thread: its area (32 bytes), and its sum at 64

    .section .rodata
    .balign 32
descriptor:
    .word   0, 0                        # version and flags
    .quad   start, commit - start, aborted

    .text
    .option norelax                     # gp isn't set, so no address may be taken relative to it
    .globl  _start, work
_start:
    lla     s0, own
    li      s1, THREADS - 1
more:
    beqz    s1, work
    li      a0, CLONE_THREAD
    li      a1, 0                       # the child has its parent's sp, which nobody uses
    li      a7, 220                     # clone
    ecall
    beqz    a0, work
    addi    s0, s0, 128
    addi    s1, s1, -1
    j       more

work:
    mv      a0, s0
    li      a1, 32
    li      a2, 0
    li      a3, SIGNATURE
    li      a7, 293                     # rseq
    ecall
    lla     t0, descriptor
    sd      t0, RSEQ_CS(s0)
start:
    li      t1, ROUNDS
    ld      t2, 64(s0)
round:
    addi    t1, t1, -1
    bnez    t1, round
    addi    t2, t2, 1
    sd      t2, 64(s0)
commit:
    j       commit

    .word   SIGNATURE
aborted:
    j       aborted
