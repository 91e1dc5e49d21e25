/* Operations by restartable sequences, with the names and the words of librseq; each is given the area of its thread. An operation takes
 * effect as a whole, and only if all the while the thread runs on the processor `cpu` and no other thread does there. It answers 0 where
 * its last store was made; -1 where the thread was interrupted, or runs on another processor: nothing was committed, and the caller looks
 * at its processor anew and tries again; and those that compare answer 1 where a word isn't as expected. */
#pragma once
#include "rseq.h"

/* The operands that every sequence has. */
#define RSEQ_OPERANDS(area, cpu) \
    [rseq_cs] "m"((area)->rseq_cs), [current_cpu_id] "m"((area)->cpu_id), [cpu_id] "r"(cpu)

/* How every sequence begins: its descriptor, the store that begins it, and the look at the processor. */
#define RSEQ_ASM_BEGIN                    \
    RSEQ_ASM_DEFINE_TABLE(1, 2f, 3f, 4f)  \
    RSEQ_ASM_STORE_RSEQ_CS(2, 1b, rseq_cs) \
    RSEQ_ASM_OP_CMPEQ32(current_cpu_id, cpu_id, 4f)

/* Stores a word that isn't the commit yet. */
#define RSEQ_ASM_OP_STORE(value, word) "   sd      %[" #value "], %[" #word "]\n"

/* Copies so many bytes, one by one. It may change t1 to t4. */
#define RSEQ_ASM_OP_COPY(to, from, length) \
    "   mv      t1, %[" #length "]\n"      \
    "   mv      t2, %[" #from "]\n"        \
    "   mv      t3, %[" #to "]\n"          \
    "   beqz    t1, 6f\n"                  \
    "5: lbu     t4, 0(t2)\n"               \
    "   sb      t4, 0(t3)\n"               \
    "   addi    t1, t1, -1\n"              \
    "   addi    t2, t2, 1\n"               \
    "   addi    t3, t3, 1\n"               \
    "   bnez    t1, 5b\n"                  \
    "6:\n"

/* Adds to the word at v. */
static inline int rseq_addv(struct rseq *area, intptr_t *v, intptr_t count, int cpu) {
    asm goto(RSEQ_ASM_BEGIN
             RSEQ_ASM_OP_R_LOAD(v)
             RSEQ_ASM_OP_R_ADD(count)
             RSEQ_ASM_OP_R_FINAL_STORE(v, 3)
             RSEQ_ASM_DEFINE_ABORT(4, abort)
             : /* asm goto has no outputs */
             : RSEQ_OPERANDS(area, cpu), [v] "m"(*v), [count] "r"(count)
             : "memory", "t1"
             : abort);
    return 0;
abort:
    return -1;
}

/* Stores newv at v, where expect stands there. */
static inline int rseq_cmpeqv_storev(struct rseq *area, intptr_t *v, intptr_t expect, intptr_t newv, int cpu) {
    asm goto(RSEQ_ASM_BEGIN
             RSEQ_ASM_OP_CMPEQ(v, expect, cmpfail)
             RSEQ_ASM_OP_FINAL_STORE(newv, v, 3)
             RSEQ_ASM_DEFINE_ABORT(4, abort)
             : /* asm goto has no outputs */
             : RSEQ_OPERANDS(area, cpu), [v] "m"(*v), [expect] "r"(expect), [newv] "r"(newv)
             : "memory", "t1"
             : abort, cmpfail);
    return 0;
abort:
    return -1;
cmpfail:
    return 1;
}

/* Stores newv at v, where expect stands there and expect2 at v2. */
static inline int rseq_cmpeqv_cmpeqv_storev(struct rseq *area, intptr_t *v, intptr_t expect, intptr_t *v2, intptr_t expect2, intptr_t newv,
                                            int cpu) {
    asm goto(RSEQ_ASM_BEGIN
             RSEQ_ASM_OP_CMPEQ(v, expect, cmpfail)
             RSEQ_ASM_OP_CMPEQ(v2, expect2, cmpfail)
             RSEQ_ASM_OP_FINAL_STORE(newv, v, 3)
             RSEQ_ASM_DEFINE_ABORT(4, abort)
             : /* asm goto has no outputs */
             : RSEQ_OPERANDS(area, cpu), [v] "m"(*v), [expect] "r"(expect), [v2] "m"(*v2), [expect2] "r"(expect2), [newv] "r"(newv)
             : "memory", "t1"
             : abort, cmpfail);
    return 0;
abort:
    return -1;
cmpfail:
    return 1;
}

/* Stores newv2 at v2 and then newv at v, where expect stands at v. An interruption between the two leaves the first store behind. */
static inline int rseq_cmpeqv_trystorev_storev(struct rseq *area, intptr_t *v, intptr_t expect, intptr_t *v2, intptr_t newv2, intptr_t newv,
                                               int cpu) {
    asm goto(RSEQ_ASM_BEGIN
             RSEQ_ASM_OP_CMPEQ(v, expect, cmpfail)
             RSEQ_ASM_OP_STORE(newv2, v2)
             RSEQ_ASM_OP_FINAL_STORE(newv, v, 3)
             RSEQ_ASM_DEFINE_ABORT(4, abort)
             : /* asm goto has no outputs */
             : RSEQ_OPERANDS(area, cpu), [v] "m"(*v), [expect] "r"(expect), [v2] "m"(*v2), [newv2] "r"(newv2), [newv] "r"(newv)
             : "memory", "t1"
             : abort, cmpfail);
    return 0;
abort:
    return -1;
cmpfail:
    return 1;
}

/* Copies length bytes from src to dst and then stores newv at v, where expect stands at v. An interruption leaves behind what was copied. */
static inline int rseq_cmpeqv_trymemcpy_storev(struct rseq *area, intptr_t *v, intptr_t expect, void *dst, const void *src, size_t length,
                                               intptr_t newv, int cpu) {
    asm goto(RSEQ_ASM_BEGIN
             RSEQ_ASM_OP_CMPEQ(v, expect, cmpfail)
             RSEQ_ASM_OP_COPY(dst, src, length)
             RSEQ_ASM_OP_FINAL_STORE(newv, v, 3)
             RSEQ_ASM_DEFINE_ABORT(4, abort)
             : /* asm goto has no outputs */
             : RSEQ_OPERANDS(area, cpu), [v] "m"(*v), [expect] "r"(expect), [dst] "r"(dst), [src] "r"(src), [length] "r"(length),
               [newv] "r"(newv)
             : "memory", "t1", "t2", "t3", "t4"
             : abort, cmpfail);
    return 0;
abort:
    return -1;
cmpfail:
    return 1;
}

/* Where another word than expectnot stands at v: stores it at load, and at v the word that lies voffp bytes behind where it points. So the
 * first node of a list is taken, and the one behind it becomes the first. */
static inline int rseq_cmpnev_storeoffp_load(struct rseq *area, intptr_t *v, intptr_t expectnot, long voffp, intptr_t *load, int cpu) {
    asm goto(RSEQ_ASM_BEGIN
             RSEQ_ASM_OP_CMPNE(v, expectnot, cmpfail)
             RSEQ_ASM_OP_R_LOAD(v)
             RSEQ_ASM_OP_R_STORE(load)
             RSEQ_ASM_OP_R_LOAD_OFF(voffp)
             RSEQ_ASM_OP_R_FINAL_STORE(v, 3)
             RSEQ_ASM_DEFINE_ABORT(4, abort)
             : /* asm goto has no outputs */
             : RSEQ_OPERANDS(area, cpu), [v] "m"(*v), [expectnot] "r"(expectnot), [voffp] "r"(voffp), [load] "m"(*load)
             : "memory", "t1"
             : abort, cmpfail);
    return 0;
abort:
    return -1;
cmpfail:
    return 1;
}

/* Loads the address that lies so many bytes behind another, and adds to the word there: the commit. It may change t1 and t2. */
#define RSEQ_ASM_OP_R_DEREF_ADDV(ptr, off, inc, post_commit_label) \
    "   add     t1, %[" #ptr "], %[" #off "]\n"                    \
    "   ld      t1, 0(t1)\n"                                       \
    "   ld      t2, 0(t1)\n"                                       \
    "   add     t2, t2, %[" #inc "]\n"                             \
    "   sd      t2, 0(t1)\n" #post_commit_label ":\n"

/* Adds to the word to which the word points that lies off bytes behind ptr. */
static inline int rseq_offset_deref_addv(struct rseq *area, intptr_t *ptr, long off, intptr_t inc, int cpu) {
    asm goto(RSEQ_ASM_BEGIN
             RSEQ_ASM_OP_R_DEREF_ADDV(ptr, off, inc, 3)
             RSEQ_ASM_DEFINE_ABORT(4, abort)
             : /* asm goto has no outputs */
             : RSEQ_OPERANDS(area, cpu), [ptr] "r"(ptr), [off] "r"(off), [inc] "r"(inc)
             : "memory", "t1", "t2"
             : abort);
    return 0;
abort:
    return -1;
}
