// Three threads add to one count under a mutex.
#include <pthread.h>
#include <stdio.h>

enum { THREADS = 3, ADDITIONS = 5 };
static pthread_mutex_t lock = PTHREAD_MUTEX_INITIALIZER;
static long count;

static void *add(void *unused) {
    (void)unused;
    for (int done = 0; done < ADDITIONS; done++) {
        pthread_mutex_lock(&lock);
        count++;
        pthread_mutex_unlock(&lock);
    }
    return NULL;
}

int main(void) {
    pthread_t threads[THREADS];
    for (int at = 0; at < THREADS; at++)
        if (pthread_create(&threads[at], NULL, add, NULL))
            return 2;
    for (int at = 0; at < THREADS; at++)
        pthread_join(threads[at], NULL);
    printf("count %ld\n", count);
    return count != THREADS * ADDITIONS;
}
