/* A thread that sends a signal to itself finds that its handler has run when the call returns (POSIX raise and kill), and so does one
 * that unmasks a signal that is pending (pthread_sigmask). */
#include "../common/threads.h"
#include "../common/signals.h"

enum { CALL_GETPID = 172, CALL_GETTID = 178 };

enum { ROUNDS = 4 };

static volatile uint64_t handled;

static void count(int signal, void *none, struct frame *frame) {
    (void)signal, (void)none, (void)frame;
    handled++;
}

/* Sends SIGUSR1 to the thread itself, as raise(3) does. */
static void raise_signal(void) {
    call(CALL_TGKILL, call(CALL_GETPID, 0, 0, 0, 0), call(CALL_GETTID, 0, 0, 0, 0), SIGUSR1, 0);
}

/* Whether the handler has run once more when that returns. */
static int raises(void) {
    uint64_t before = handled;
    raise_signal();
    return handled == before + 1;
}

/* The same of a signal that is sent while it is masked: the handler runs when that ends, and not before. */
static int unmasks(void) {
    uint64_t before = handled;
    mask_signal(SIG_BLOCK, SIGUSR1);
    raise_signal();
    int waits = handled == before;
    mask_signal(SIG_UNBLOCK, SIGUSR1);
    return waits && handled == before + 1;
}

int main(void) {
    if (set_handler(SIGUSR1, count) != 0)
        return 3;
    uint64_t in_time = 0;
    for (int round = 0; round < ROUNDS; round++)
        in_time += raises() + unmasks();
    write_line("handled ", handled);
    write_line("in time ", in_time);
    return handled == 2 * ROUNDS && in_time == 2 * ROUNDS ? 0 : 1;
}
