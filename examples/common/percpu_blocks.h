/* The blocks of crates/percpu_lib as inline assembler, word for word (docs/reference/BLOCKS.md): the operands %[area], %[cells] and %[value] are the
 * three registers of that page. An operand that a block writes is early clobbered ("=&r", "+&r"). Each text stands once in a program, below
 * 0x7FFFF800, and `table` is the address of its descriptor there. examples/check.py compares the bytes with those that `make` emits. */
#pragma once
#include "rseq.h"

/* The registers that every block may change. */
#define PERCPU_CLOBBERS "memory", "x5", "x6", "x7", "x28", "x29", "x30", "x31"

/* The descriptor of a block, with label 9: from its start (label 1) to its post-commit address (2), with its abort address (3). */
#define PERCPU_DESCRIPTOR RSEQ_ASM_DEFINE_TABLE(9, 1f, 2f, 3f)

/* Words are as they are written: not shortened, nor changed by the linker. */
#define PERCPU_BEGIN            \
    "   .option push\n"         \
    "   .option norvc\n"        \
    "   .option norelax\n"      \
    "   .balign 4\n0:\n"
#define PERCPU_END              \
    "4:\n"                      \
    "   .option pop\n"

/* The processor is asked for, the descriptor stored, and the sequence started; then x5 is the address of the processor's data. */
#define PERCPU_ASK(table, shift)                 \
    "   lw      x5, 0(%[area])\n"                \
    "   lui     x6, %%hi(" table ")\n"           \
    "   addi    x6, x6, %%lo(" table ")\n"       \
    "   sd      x6, 8(%[area])\n"                \
    "1:\n"                                       \
    "   lw      x6, 4(%[area])\n"                \
    "   bne     x6, x5, 0b\n"                    \
    "   slli    x5, x5, " #shift "\n"            \
    "   add     x5, x5, %[cells]\n"

/* Behind the sequence: past the block, the signature, and the abort handler. */
#define PERCPU_LEAVE                             \
    "2:\n"                                       \
    "   j       4f\n"                            \
    "   .word   " RSEQ_TEXT(RSEQ_SIG) "\n"       \
    "3:\n"
#define PERCPU_AGAIN "   j       0b\n"

/* Adds the value to the cell of the processor. */
#define PERCPU_ADD(table)                        \
    PERCPU_BEGIN PERCPU_ASK(table, 6)            \
    "   ld      x6, 0(x5)\n"                     \
    "   add     x6, x6, %[value]\n"              \
    "   sd      x6, 0(x5)\n"                     \
    PERCPU_LEAVE PERCPU_AGAIN PERCPU_END

/* Puts the node at the value before the list of the processor. */
#define PERCPU_PUSH(table)                       \
    PERCPU_BEGIN PERCPU_ASK(table, 6)            \
    "   ld      x6, 0(x5)\n"                     \
    "   sd      x6, 0(%[value])\n"               \
    "   sd      %[value], 0(x5)\n"               \
    PERCPU_LEAVE PERCPU_AGAIN PERCPU_END

/* Takes the first node out of the list of the processor: the value is its address, or 0. */
#define PERCPU_POP(table)                        \
    PERCPU_BEGIN PERCPU_ASK(table, 6)            \
    "   ld      %[value], 0(x5)\n"               \
    "   beqz    %[value], 2f\n"                  \
    "   ld      x6, 0(%[value])\n"               \
    "   sd      x6, 0(x5)\n"                     \
    PERCPU_LEAVE PERCPU_AGAIN PERCPU_END

/* Takes the last item out of the pool of the processor: the value is the item, or 0. */
#define PERCPU_ALLOC(table)                      \
    PERCPU_BEGIN PERCPU_ASK(table, 13)           \
    "   ld      x6, 0(x5)\n"                     \
    "   li      %[value], 0\n"                   \
    "   beqz    x6, 2f\n"                        \
    "   addi    x6, x6, -1\n"                    \
    "   slli    x7, x6, 3\n"                     \
    "   add     x7, x7, x5\n"                    \
    "   ld      %[value], 64(x7)\n"              \
    "   sd      x6, 0(x5)\n"                     \
    PERCPU_LEAVE PERCPU_AGAIN PERCPU_END

/* Puts the value into the pool of the processor and makes it 0; where the pool is full, nothing is done. */
#define PERCPU_FREE(table)                       \
    PERCPU_BEGIN                                 \
    "   mv      x28, %[value]\n"                 \
    PERCPU_ASK(table, 13)                        \
    "   ld      x6, 0(x5)\n"                     \
    "   li      x7, 512\n"                       \
    "   beq     x6, x7, 2f\n"                    \
    "   slli    x7, x6, 3\n"                     \
    "   add     x7, x7, x5\n"                    \
    "   sd      %[value], 64(x7)\n"              \
    "   addi    x6, x6, 1\n"                     \
    "   li      %[value], 0\n"                   \
    "   sd      x6, 0(x5)\n"                     \
    PERCPU_LEAVE                                 \
    "   mv      %[value], x28\n"                 \
    PERCPU_AGAIN PERCPU_END
