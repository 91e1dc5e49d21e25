// The pauses of liburcu's rcutorture, on a machine without a clock: whoever pauses yields. The test, which is to go on for ten seconds,
// goes on until so many updates were made.
#include <poll.h>
#include <sched.h>
#include <unistd.h>

enum { UPDATES = 8 };
extern long n_updates;

unsigned sleep(unsigned seconds) {
    (void)seconds;
    while (__atomic_load_n(&n_updates, __ATOMIC_RELAXED) < UPDATES)
        sched_yield();
    return 0;
}

int poll(struct pollfd *files, nfds_t count, int milliseconds) {
    (void)files, (void)count, (void)milliseconds;
    sched_yield();
    return 0;
}
