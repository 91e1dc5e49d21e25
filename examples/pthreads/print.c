// Three threads print the same line at once. The console has three whole lines: standard output has a lock.
#include <pthread.h>
#include <stdio.h>

enum { THREADS = 3 };

static void *print(void *unused) {
    (void)unused;
    printf("%s %d %#x %.3f\n", "a line", 42, 42, 4.2);
    return NULL;
}

int main(void) {
    pthread_t threads[THREADS];
    for (int at = 0; at < THREADS; at++)
        if (pthread_create(&threads[at], NULL, print, NULL))
            return 2;
    for (int at = 0; at < THREADS; at++)
        pthread_join(threads[at], NULL);
    return 0;
}
