// Three threads allocate blocks of many sizes at once, write to each, look whether it is still theirs, and free it.
#include <pthread.h>
#include <stdio.h>
#include <stdlib.h>
#include <string.h>

enum { THREADS = 3, BLOCKS = 6 };
static long broken;

static int is_filled(const unsigned char *block, size_t size, int with) {
    for (size_t at = 0; at < size; at++)
        if (block[at] != with)
            return 0;
    return 1;
}

static void *allocate(void *own) {
    int mark = 1 + *(int *)own;
    unsigned char *blocks[BLOCKS];
    for (int at = 0; at < BLOCKS; at++) {
        blocks[at] = malloc(16 << at);
        if (blocks[at] == NULL)
            exit(2);
        memset(blocks[at], mark, 16 << at);
    }
    for (int at = 0; at < BLOCKS; at++) {
        if (!is_filled(blocks[at], 16 << at, mark))
            __atomic_fetch_add(&broken, 1, __ATOMIC_RELAXED);
        free(blocks[at]);
    }
    return NULL;
}

int main(void) {
    pthread_t threads[THREADS];
    int numbers[THREADS];
    for (int at = 0; at < THREADS; at++) {
        numbers[at] = at;
        if (pthread_create(&threads[at], NULL, allocate, &numbers[at]))
            return 2;
    }
    for (int at = 0; at < THREADS; at++)
        pthread_join(threads[at], NULL);
    printf("broken blocks %ld\n", broken);
    return broken != 0;
}
