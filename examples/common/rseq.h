/* Restartable sequences by rseq(2), for the C examples: what the kernel reads and writes, with the names of linux/rseq.h (Linux 6.3),
 * and the assembler of a sequence, with the names of librseq. */
#pragma once
#include "threads.h"
enum { CALL_RSEQ = 293 };

enum { RSEQ_FLAG_UNREGISTER = 1 };

enum { RSEQ_CPU_ID_UNINITIALIZED = -1, RSEQ_CPU_ID_REGISTRATION_FAILED = -2 };

/* The word before each abort handler of this architecture: csrw mhartid, x0, which is an instruction of no user program. */
#define RSEQ_SIG 0xF1401073

/* The descriptor of a sequence: where it starts, how many bytes behind that its last instruction ends, and where a thread goes on that
 * was interrupted inside. */
struct rseq_cs {
    uint32_t version;
    uint32_t flags;
    uint64_t start_ip;
    uint64_t post_commit_offset;
    uint64_t abort_ip;
} __attribute__((aligned(32)));

/* The area of a thread. The kernel writes the processor on which the thread runs, the processor's node, and an id of the thread that
 * no other running thread of the process has; the thread writes the address of a descriptor, and flags (0). */
struct rseq {
    uint32_t cpu_id_start;
    uint32_t cpu_id;
    uint64_t rseq_cs;
    uint32_t flags;
    uint32_t node_id;
    uint32_t mm_cid;
} __attribute__((aligned(32)));

/* rseq(2): 0, or a negative error number. */
static inline long sys_rseq(struct rseq *area, uint32_t length, int flags, uint32_t signature) {
    return call(CALL_RSEQ, (long)area, length, flags, signature);
}

/* Registers the area of the current thread, and unregisters it: 0, or a negative error number. */
static inline long rseq_register(struct rseq *area) {
    return sys_rseq(area, sizeof *area, 0, RSEQ_SIG);
}

static inline long rseq_unregister(struct rseq *area) {
    return sys_rseq(area, sizeof *area, RSEQ_FLAG_UNREGISTER, RSEQ_SIG);
}

/* The processor on which the current thread runs. It may run on another as soon as this is read. */
static inline int rseq_cpu_start(struct rseq *area) {
    return *(volatile uint32_t *)&area->cpu_id_start;
}

/* The assembler of a sequence, in pieces, each of which may change t1. */
#define RSEQ_TEXT_OF(value) #value
#define RSEQ_TEXT(value) RSEQ_TEXT_OF(value)

/* The descriptor, in a section of its own: from start_ip up to post_commit_ip. */
#define RSEQ_ASM_DEFINE_TABLE(label, start_ip, post_commit_ip, abort_ip) \
    "   .pushsection __rseq_cs, \"aw\"\n"                                \
    "   .balign 32\n" #label ":\n"                                       \
    "   .long   0, 0\n"                                                  \
    "   .quad   " #start_ip ", " #post_commit_ip " - " #start_ip ", " #abort_ip "\n" \
    "   .popsection\n"

/* Stores the address of the descriptor. The sequence begins behind this store. */
#define RSEQ_ASM_STORE_RSEQ_CS(start_label, descriptor_label, rseq_cs) \
    "   la      t1, " #descriptor_label "\n"                           \
    "   sd      t1, %[" #rseq_cs "]\n" #start_label ":\n"

/* Goes to the abort handler where a word of 32 bits isn't the one that is expected. */
#define RSEQ_ASM_OP_CMPEQ32(word, expected, abort_label) \
    "   lw      t1, %[" #word "]\n"                      \
    "   bne     t1, %[" #expected "], " #abort_label "\n"

/* Loads a word of 64 bits, adds to it, and stores it: the commit, behind which the sequence ends. */
#define RSEQ_ASM_OP_R_LOAD(word) "   ld      t1, %[" #word "]\n"
#define RSEQ_ASM_OP_R_ADD(count) "   add     t1, t1, %[" #count "]\n"
#define RSEQ_ASM_OP_R_FINAL_STORE(word, post_commit_label) "   sd      t1, %[" #word "]\n" #post_commit_label ":\n"

/* The abort handler behind its signature, which goes on at a label of C; what stands before goes past it. */
#define RSEQ_ASM_DEFINE_ABORT(label, abort_label)          \
    "   j       222f\n"                                    \
    "   .balign 4\n"                                       \
    "   .long   " RSEQ_TEXT(RSEQ_SIG) "\n" #label ":\n"    \
    "   j       %l[" #abort_label "]\n"                    \
    "222:\n"

/* Goes to a label of C where a word of 64 bits isn't the one that is expected, and where it is the one that isn't. */
#define RSEQ_ASM_OP_CMPEQ(word, expected, label) \
    "   ld      t1, %[" #word "]\n"              \
    "   bne     t1, %[" #expected "], %l[" #label "]\n"
#define RSEQ_ASM_OP_CMPNE(word, expected, label) \
    "   ld      t1, %[" #word "]\n"              \
    "   beq     t1, %[" #expected "], %l[" #label "]\n"

/* Stores what was loaded, and loads the word that lies so many bytes behind where that points. */
#define RSEQ_ASM_OP_R_STORE(word) "   sd      t1, %[" #word "]\n"
#define RSEQ_ASM_OP_R_LOAD_OFF(offset)    \
    "   add     t1, t1, %[" #offset "]\n" \
    "   ld      t1, 0(t1)\n"

/* Stores a word of 64 bits: the commit, behind which the sequence ends. */
#define RSEQ_ASM_OP_FINAL_STORE(value, word, post_commit_label) "   sd      %[" #value "], %[" #word "]\n" #post_commit_label ":\n"
