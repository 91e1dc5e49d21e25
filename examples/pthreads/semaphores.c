// Two semaphores and a ring of two slots: one thread puts, another takes, in order.
#include <pthread.h>
#include <semaphore.h>
#include <stdio.h>

enum { SLOTS = 2, ITEMS = 6 };
static sem_t empty, full;
static int ring[SLOTS];

static void *put(void *unused) {
    (void)unused;
    for (int item = 0; item < ITEMS; item++) {
        sem_wait(&empty);
        ring[item % SLOTS] = item;
        sem_post(&full);
    }
    return NULL;
}

int main(void) {
    pthread_t thread;
    int wrong = 0;
    sem_init(&empty, 0, SLOTS);
    sem_init(&full, 0, 0);
    if (pthread_create(&thread, NULL, put, NULL))
        return 2;
    for (int item = 0; item < ITEMS; item++) {
        sem_wait(&full);
        wrong += ring[item % SLOTS] != item;
        sem_post(&empty);
    }
    pthread_join(thread, NULL);
    printf("wrong %d\n", wrong);
    return wrong != 0;
}
