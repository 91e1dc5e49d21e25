// Three threads wait under a mutex for the same thing, and one broadcast lets all of them go on.
#include <pthread.h>
#include <stdio.h>

enum { THREADS = 3 };
static pthread_mutex_t lock = PTHREAD_MUTEX_INITIALIZER;
static pthread_cond_t opened = PTHREAD_COND_INITIALIZER, gathered = PTHREAD_COND_INITIALIZER;
static int waiting, is_open, through;

static void *pass(void *unused) {
    (void)unused;
    pthread_mutex_lock(&lock);
    if (++waiting == THREADS)
        pthread_cond_signal(&gathered);
    while (!is_open)
        pthread_cond_wait(&opened, &lock);
    through++;
    pthread_mutex_unlock(&lock);
    return NULL;
}

int main(void) {
    pthread_t threads[THREADS];
    for (int at = 0; at < THREADS; at++)
        if (pthread_create(&threads[at], NULL, pass, NULL))
            return 2;
    pthread_mutex_lock(&lock);
    while (waiting < THREADS)
        pthread_cond_wait(&gathered, &lock);
    is_open = 1;
    pthread_cond_broadcast(&opened);
    pthread_mutex_unlock(&lock);
    for (int at = 0; at < THREADS; at++)
        pthread_join(threads[at], NULL);
    printf("through %d\n", through);
    return through != THREADS;
}
