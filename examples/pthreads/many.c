// 63 threads beside the first one, as many as the machine has, and all of them at once: each waits until all are there.
#include <pthread.h>
#include <stdio.h>

enum { THREADS = 63 };
static pthread_barrier_t all_there;
static long count;

static void *add(void *unused) {
    (void)unused;
    pthread_barrier_wait(&all_there);
    __atomic_fetch_add(&count, 1, __ATOMIC_RELAXED);
    return NULL;
}

int main(void) {
    pthread_t threads[THREADS];
    if (pthread_barrier_init(&all_there, NULL, THREADS))
        return 2;
    for (int at = 0; at < THREADS; at++)
        if (pthread_create(&threads[at], NULL, add, NULL))
            return 2;
    for (int at = 0; at < THREADS; at++)
        pthread_join(threads[at], NULL);
    printf("threads %ld\n", count);
    return count != THREADS;
}
