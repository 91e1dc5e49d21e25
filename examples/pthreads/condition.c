// One thread waits under a mutex until another says that there is something.
#include <pthread.h>
#include <stdio.h>

static pthread_mutex_t lock = PTHREAD_MUTEX_INITIALIZER;
static pthread_cond_t changed = PTHREAD_COND_INITIALIZER;
static int value, is_there;

static void *give(void *unused) {
    (void)unused;
    pthread_mutex_lock(&lock);
    value = 42;
    is_there = 1;
    pthread_cond_signal(&changed);
    pthread_mutex_unlock(&lock);
    return NULL;
}

int main(void) {
    pthread_t thread;
    if (pthread_create(&thread, NULL, give, NULL))
        return 2;
    pthread_mutex_lock(&lock);
    while (!is_there)
        pthread_cond_wait(&changed, &lock);
    int seen = value;
    pthread_mutex_unlock(&lock);
    pthread_join(thread, NULL);
    printf("seen %d\n", seen);
    return seen != 42;
}
