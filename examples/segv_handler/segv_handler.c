/* A handler of SIGSEGV that mends what it can. A store to a page that may not be touched opens the page, and is executed again when the
 * handler returns; a load is skipped, and its register becomes -1: for that the handler changes pc and register in its frame. */
#include "../common/threads.h"
#include "../common/signals.h"

enum { CALL_MMAP = 222, CALL_MPROTECT = 226 };

enum { PROT_NONE = 0, PROT_READ = 1, PROT_WRITE = 2 };

enum { MAP_PRIVATE = 0x02, MAP_ANONYMOUS = 0x20 };

enum { PAGE = 4096, PAGES = 4, STEP = PAGE / 2 };

/* The major opcode of stores (RISC-V Unprivileged ISA). */
enum { MAJOR_OPCODE = 0x7f, STORE = 0x23 };

static int opened, skipped;

/* The value of a register in a frame: x0 is 0. */
static uint64_t register_in(const struct frame *frame, int number) {
    return number == 0 ? 0 : frame->x[number - 1];
}

/* The address of a store: rs1 and an offset of 12 bits in two parts. */
static uint64_t store_address(const struct frame *frame, uint32_t word) {
    int64_t offset = (int64_t)((int32_t)word >> 25) * 32 + (word >> 7) % 32;
    return register_in(frame, (word >> 15) % 32) + offset;
}

/* Opens the page of an address; ends the process where there is none. */
static void open_page(uint64_t address) {
    if (call(CALL_MPROTECT, address / PAGE * PAGE, PAGE, PROT_READ | PROT_WRITE, 0) != 0)
        call(CALL_EXIT_GROUP, 3, 0, 0, 0);
    opened++;
}

/* Goes past a load, as if it had loaded -1. */
static void skip_load(struct frame *frame, uint32_t word) {
    int number = (word >> 7) % 32;
    if (number != 0)
        frame->x[number - 1] = -1;
    frame->pc += 4;
    skipped++;
}

/* The handler: the pc in its frame is that of the instruction that faulted. */
static void mend(int signal, void *none, struct frame *frame) {
    (void)signal, (void)none;
    uint32_t word = *(const uint32_t *)frame->pc;
    if ((word & MAJOR_OPCODE) == STORE)
        open_page(store_address(frame, word));
    else
        skip_load(frame, word);
}

/* Pages of which nothing may be touched. */
static char *closed_pages(long count) {
    register long a0 asm("a0") = 0;
    register long a1 asm("a1") = count * PAGE;
    register long a2 asm("a2") = PROT_NONE;
    register long a3 asm("a3") = MAP_PRIVATE | MAP_ANONYMOUS;
    register long a4 asm("a4") = -1;
    register long a5 asm("a5") = 0;
    register long a7 asm("a7") = CALL_MMAP;
    asm volatile("ecall" : "+r"(a0) : "r"(a1), "r"(a2), "r"(a3), "r"(a4), "r"(a5), "r"(a7) : "memory");
    return (char *)a0;
}

/* What a load from an address gives where nothing is. */
static int64_t __attribute__((noipa)) loaded_from(uint64_t address) {
    return *(volatile int64_t *)address;
}

int main(void) {
    if (set_handler(SIGSEGV, mend) != 0)
        return 3;
    volatile char *pages = closed_pages(PAGES);
    int total = 0;
    for (int at = 0; at < PAGES * PAGE; at += STEP)
        pages[at] = 1 + at / STEP;
    for (int at = 0; at < PAGES * PAGE; at += STEP)
        total += pages[at];
    int64_t loaded = loaded_from(8);
    write_line("pages opened ", opened);
    write_line("total ", total);
    write_line("loads skipped ", skipped);
    write_text(loaded == -1 ? "the load gave -1\n" : "the load gave something else\n");
    return opened == PAGES && total == 36 && skipped == 1 && loaded == -1 ? 0 : 1;
}
