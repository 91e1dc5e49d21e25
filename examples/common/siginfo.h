#pragma once /* What a handler with SA_SIGINFO is given, as Linux for RISC-V has it (asm-generic/siginfo.h, asm/ucontext.h, asm/sigcontext.h). */
#include "signals.h"
#ifndef SA_SIGINFO /* (the header of a C library may have defined it) */
enum { SA_SIGINFO = 4 };
#endif
/* Why there was a SIGSEGV: no page is there, or its page can't be used so. */
enum { NO_PAGE = 1, CLOSED_PAGE = 2 };

/* A siginfo_t, of 128 bytes. */
struct signal_info {
    int32_t signal, error, code, unused;
    union {
        uint64_t address; /* of a fault */
        int32_t sender;   /* of a signal that was sent: the number of the process */
    };
    uint64_t rest[13];
};

/* A ucontext_t, of 960 bytes: how the thread goes on when the handler returns. A handler may change the pc, the registers and the mask. */
struct signal_context {
    uint64_t flags, link, stack[3];
    uint64_t mask, unused[16];
    uint64_t pc, x[31]; /* x[0] is x1, and so on */
    uint64_t floating_point[66];
};

/* A handler with SA_SIGINFO. */
typedef void informed_handler(int signal, struct signal_info *info, struct signal_context *context);

/* Sets such a handler as the action of a signal: 0, or a negative error number. */
static inline long set_informed_handler(int signal, informed_handler *handler) {
    struct {
        informed_handler *handler;
        uint64_t flags, mask;
    } action = {handler, SA_SIGINFO, 0};
    return call(CALL_RT_SIGACTION, signal, (long)&action, 0, SET_BYTES);
}
