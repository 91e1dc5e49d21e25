// The first thread sends another a signal, whose handler runs there.
#include <pthread.h>
#include <signal.h>
#include <stdio.h>

static volatile sig_atomic_t is_here;
static pthread_t target;
static int wrong;

static void handle(int number) {
    wrong += number != SIGUSR1 || !pthread_equal(pthread_self(), target);
    is_here = 1;
}

static void *wait_for_it(void *unused) {
    (void)unused;
    while (!is_here)
        sched_yield();
    return NULL;
}

int main(void) {
    struct sigaction action = {.sa_handler = handle};
    if (sigaction(SIGUSR1, &action, NULL) || pthread_create(&target, NULL, wait_for_it, NULL))
        return 2;
    pthread_kill(target, SIGUSR1);
    pthread_join(target, NULL);
    printf("wrong %d\n", wrong);
    return wrong != 0;
}
