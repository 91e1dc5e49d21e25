// Three threads ask for the same object, which the first of them makes.
#include <pthread.h>
#include <stdio.h>

enum { THREADS = 3 };
static pthread_once_t once = PTHREAD_ONCE_INIT;
static long made, object, unmade;

static void make(void) {
    made++;
    object = 42;
}

static void *use(void *unused) {
    (void)unused;
    pthread_once(&once, make);
    if (object != 42)
        __atomic_fetch_add(&unmade, 1, __ATOMIC_RELAXED);
    return NULL;
}

int main(void) {
    pthread_t threads[THREADS];
    for (int at = 0; at < THREADS; at++)
        if (pthread_create(&threads[at], NULL, use, NULL))
            return 2;
    for (int at = 0; at < THREADS; at++)
        pthread_join(threads[at], NULL);
    printf("made %ld, unmade %ld\n", made, unmade);
    return made != 1 || unmade != 0;
}
