// A thread that nobody joins. The first one ends by pthread_exit, and the process by the last thread.
#include <pthread.h>
#include <stdio.h>
#include <stdlib.h>

static void *last(void *unused) {
    (void)unused;
    puts("last");
    exit(0);
}

int main(void) {
    pthread_t thread;
    if (pthread_create(&thread, NULL, last, NULL) || pthread_detach(thread))
        return 2;
    pthread_exit(NULL);
}
