/* Store buffering: two threads each store to one word and load the other's. Without a fence between, both may
 * read 0. */
#include "../common/threads.h"

#ifdef FENCED
#define BETWEEN asm volatile("fence rw, rw" : : : "memory")
#else
#define BETWEEN asm volatile("" : : : "memory")
#endif

static struct thread other;
static volatile uint32_t x, y;
static uint32_t other_read;

static void run_other(void *unused) {
    (void)unused;
    y = 1;
    BETWEEN;
    other_read = x;
}

int main(void) {
    start_thread(&other, run_other, NULL);
    x = 1;
    BETWEEN;
    uint32_t main_read = y;
    join_thread(&other);
    write_line("main read ", main_read);
    write_line("other read ", other_read);
    return 0;
}
