/* abort(3) as C libraries have it: the thread unmasks SIGABRT and sends it to itself, which ends the process before that call returns.
 * Behind it stands a store to a page that isn't there, for the case that it returns nevertheless; SIGSEGV would end the process then. */
#include "../common/threads.h"
#include "../common/signals.h"

enum { CALL_GETPID = 172, CALL_GETTID = 178 };

enum { SIGABRT = 6 };

static void abort_process(void) {
    mask_signal(SIG_UNBLOCK, SIGABRT);
    call(CALL_TGKILL, call(CALL_GETPID, 0, 0, 0, 0), call(CALL_GETTID, 0, 0, 0, 0), SIGABRT, 0);
    uint64_t *volatile nowhere = (uint64_t *)8;
    *nowhere = 0;
}

int main(void) {
    write_text("it aborts\n");
    abort_process();
    write_text("it is still there\n");
    return 1;
}
