// A lock for many readers or one writer. The two halves that the writer changes are always seen alike.
#include <pthread.h>
#include <stdio.h>

enum { READERS = 2, TIMES = 4 };
static pthread_rwlock_t lock = PTHREAD_RWLOCK_INITIALIZER;
static volatile long left, right;
static long torn;

static void *read_often(void *unused) {
    (void)unused;
    for (int done = 0; done < TIMES; done++) {
        pthread_rwlock_rdlock(&lock);
        if (left != right)
            __atomic_fetch_add(&torn, 1, __ATOMIC_RELAXED);
        pthread_rwlock_unlock(&lock);
    }
    return NULL;
}

int main(void) {
    pthread_t threads[READERS];
    for (int at = 0; at < READERS; at++)
        if (pthread_create(&threads[at], NULL, read_often, NULL))
            return 2;
    for (int done = 0; done < TIMES; done++) {
        pthread_rwlock_wrlock(&lock);
        left++;
        right++;
        pthread_rwlock_unlock(&lock);
    }
    for (int at = 0; at < READERS; at++)
        pthread_join(threads[at], NULL);
    printf("torn %ld\n", torn);
    return torn != 0;
}
