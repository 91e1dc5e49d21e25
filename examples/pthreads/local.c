// A variable of each thread, with an initial value, in the words of C11 and in those of GCC.
#include <pthread.h>
#include <stdio.h>

enum { THREADS = 3, ADDITIONS = 5 };
static _Thread_local long count = 100;
static __thread long zero;
static long sum;

static void *add(void *unused) {
    (void)unused;
    for (int done = 0; done < ADDITIONS; done++)
        count++, zero++;
    __atomic_fetch_add(&sum, count + zero, __ATOMIC_RELAXED);
    return NULL;
}

int main(void) {
    pthread_t threads[THREADS];
    for (int at = 0; at < THREADS; at++)
        if (pthread_create(&threads[at], NULL, add, NULL))
            return 2;
    for (int at = 0; at < THREADS; at++)
        pthread_join(threads[at], NULL);
    printf("sum %ld, here %ld and %ld\n", sum, count, zero);
    return sum != THREADS * (100 + 2 * ADDITIONS) || count != 100 || zero != 0;
}
