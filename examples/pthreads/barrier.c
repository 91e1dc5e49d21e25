// Three threads go through two phases, with a barrier between them: in the second each finds what all did in the first.
#include <pthread.h>
#include <stdio.h>

enum { THREADS = 3 };
static pthread_barrier_t between;
static long there[THREADS], lacking, serial;

static void *pass(void *own) {
    *(long *)own = 1;
    if (pthread_barrier_wait(&between) == PTHREAD_BARRIER_SERIAL_THREAD)
        __atomic_fetch_add(&serial, 1, __ATOMIC_RELAXED);
    for (int at = 0; at < THREADS; at++)
        if (!there[at])
            __atomic_fetch_add(&lacking, 1, __ATOMIC_RELAXED);
    return NULL;
}

int main(void) {
    pthread_t threads[THREADS];
    if (pthread_barrier_init(&between, NULL, THREADS))
        return 2;
    for (int at = 0; at < THREADS; at++)
        if (pthread_create(&threads[at], NULL, pass, &there[at]))
            return 2;
    for (int at = 0; at < THREADS; at++)
        pthread_join(threads[at], NULL);
    printf("lacking %ld, serial %ld\n", lacking, serial);
    return lacking != 0 || serial != 1;
}
