// A key under which each thread keeps a value of its own, which a destructor gets when the thread ends.
#include <pthread.h>
#include <stdio.h>

enum { THREADS = 3 };
static pthread_key_t key;
static long kept, destroyed;

static void destroy(void *value) {
    __atomic_fetch_add(&destroyed, *(int *)value, __ATOMIC_RELAXED);
}

static void *keep(void *own) {
    pthread_setspecific(key, own);
    sched_yield();
    if (pthread_getspecific(key) == own)
        __atomic_fetch_add(&kept, 1, __ATOMIC_RELAXED);
    return NULL;
}

int main(void) {
    pthread_t threads[THREADS];
    int values[THREADS] = {1, 2, 4};
    if (pthread_key_create(&key, destroy))
        return 2;
    for (int at = 0; at < THREADS; at++)
        if (pthread_create(&threads[at], NULL, keep, &values[at]))
            return 2;
    for (int at = 0; at < THREADS; at++)
        pthread_join(threads[at], NULL);
    printf("kept %ld, destroyed %ld\n", kept, destroyed);
    return kept != THREADS || destroyed != 7;
}
