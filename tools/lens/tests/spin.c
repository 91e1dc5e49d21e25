/* A lock that is wrong: two threads spin for it, and each looks and then takes. An addition is lost now and then. */
#include "calls.h"
#include "threads.h"
static struct thread other;
static volatile int held, count;
enum { TIMES = 44 };
static void add_all(void *own) {
    (void)own;
    for (int times = 0; times < TIMES; times++) {
        while (held)
            continue;
        held = 1;
        count = count + 1;
        for (volatile int wait = 0; wait < 40; wait++)
            continue;
        held = 0;
    }
}
int main(void) {
    start_thread(&other, add_all, 0);
    add_all(0);
    join_thread(&other);
    write_text(count == 2 * TIMES ? "right\n" : "lost\n");
    return count == 2 * TIMES ? 0 : 1;
}
