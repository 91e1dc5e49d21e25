/* Writes a line, and then stores to a page that may only be read and executed: signal 11 (SIGSEGV) ends the process. */
#include "../common/calls.h"

static const uint64_t constants[2] = {7, 11};

int main(void) {
    volatile uint64_t *constant = (volatile uint64_t *)constants;
    write_text("before the fault\n");
    *constant = 8;
    write_text("after the fault\n");
    return 0;
}
