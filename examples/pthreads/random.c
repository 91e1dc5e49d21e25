// Two threads drop the bytes of a page of their own, and fill it with random ones. What is dropped is zero, and no two words that they
// draw are the same.
#define _GNU_SOURCE
#include <pthread.h>
#include <stdio.h>
#include <string.h>
#include <sys/mman.h>
#include <sys/random.h>

enum { PAGE = 4096, WORDS = 8 };
static unsigned long drawn[2][WORDS];

static int is_dropped(void) {
    unsigned char *pages = mmap(NULL, 2 * PAGE, PROT_READ | PROT_WRITE, MAP_PRIVATE | MAP_ANONYMOUS, -1, 0);
    if (pages == MAP_FAILED)
        return 0;
    pages[0] = pages[PAGE - 1] = pages[PAGE] = 1;
    if (madvise(pages, 1, MADV_DONTNEED))
        return 0;
    return !pages[0] && !pages[PAGE - 1] && pages[PAGE] == 1 && !munmap(pages, 2 * PAGE);
}

static void *go(void *own) {
    if (!is_dropped() || getrandom(own, sizeof drawn[0], 0) != sizeof drawn[0])
        memset(own, 0, sizeof drawn[0]);
    return NULL;
}

int main(void) {
    pthread_t thread;
    if (pthread_create(&thread, NULL, go, drawn[1]))
        return 2;
    go(drawn[0]);
    pthread_join(thread, NULL);
    unsigned long *words = drawn[0];
    int same = 0;
    for (int at = 0; at < 2 * WORDS; at++)
        for (int before = 0; before < at; before++)
            same += words[at] == words[before];
    printf("same %d\n", same);
    return same != 0;
}
