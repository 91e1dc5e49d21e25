/* Three threads with a long loop of sums each, and an addition that may be lost at its end. */
#include "calls.h"
#include "threads.h"
enum { THREADS = 3, ROUNDS = 1500 };
static struct thread others[THREADS - 1];
static volatile int count;
static void work(void *own) {
    volatile unsigned long sum = (unsigned long)own;
    for (int round = 0; round < ROUNDS; round++)
        sum = sum * 3 + 1;
    count = count + 1;
}
int main(void) {
    for (int at = 0; at < THREADS - 1; at++)
        start_thread(&others[at], work, &others[at]);
    work(0);
    for (int at = 0; at < THREADS - 1; at++)
        join_thread(&others[at]);
    char text[] = "count 0\n";
    text[6] += count;
    write_text(text);
    return count == THREADS ? 0 : 1;
}
