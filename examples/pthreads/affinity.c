// A thread goes to processor 1 and the first one to processor 0. Each asks where it may run, and the area of restartable sequences
// says where it does.
#define _GNU_SOURCE
#include <pthread.h>
#include <sched.h>
#include <stdio.h>
#include "rseq_operations.h"

static int is_on(int processor) {
    struct rseq area = {0};
    cpu_set_t set;
    CPU_ZERO(&set);
    CPU_SET(processor, &set);
    if (pthread_setaffinity_np(pthread_self(), sizeof set, &set))
        return 0;
    CPU_ZERO(&set);
    if (pthread_getaffinity_np(pthread_self(), sizeof set, &set) || CPU_COUNT(&set) != 1 || !CPU_ISSET(processor, &set))
        return 0;
    if (rseq_register(&area))
        return 0;
    int is_there = rseq_cpu_start(&area) == processor;
    rseq_unregister(&area);
    return is_there;
}

static void *go(void *there) {
    *(int *)there = is_on(1);
    return NULL;
}

int main(void) {
    pthread_t thread;
    int other = 0;
    if (pthread_create(&thread, NULL, go, &other))
        return 2;
    int first = is_on(0);
    pthread_join(thread, NULL);
    printf("there %d %d\n", first, other);
    return !first || !other;
}
