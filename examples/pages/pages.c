/* mmap, mprotect and munmap: new pages are zero, the lowest hole is filled first, a page that is protected keeps its bytes, and a
 * page is taken away while another thread's store may still be on its way to it. */
#include "../common/threads.h"

enum { CALL_MUNMAP = 215, CALL_MMAP = 222, CALL_MPROTECT = 226 };

enum { PROT_NONE = 0, PROT_READ = 1, PROT_WRITE = 2 };

enum { MAP_PRIVATE = 0x02, MAP_ANONYMOUS = 0x20 };

enum { PAGE = 4096 };

/* A call of six arguments: its answer, or a negative error number. */
static inline long call_of_six(long number, long first, long second, long third, long fourth, long fifth, long sixth) {
    register long a0 asm("a0") = first;
    register long a1 asm("a1") = second;
    register long a2 asm("a2") = third;
    register long a3 asm("a3") = fourth;
    register long a4 asm("a4") = fifth;
    register long a5 asm("a5") = sixth;
    register long a7 asm("a7") = number;
    asm volatile("ecall" : "+r"(a0) : "r"(a1), "r"(a2), "r"(a3), "r"(a4), "r"(a5), "r"(a7) : "memory");
    return a0;
}

/* New pages that may be read and written. */
static volatile char *map_pages(long count) {
    return (volatile char *)call_of_six(CALL_MMAP, 0, count * PAGE, PROT_READ | PROT_WRITE, MAP_PRIVATE | MAP_ANONYMOUS, -1, 0);
}

static long unmap_pages(volatile char *from, long count) {
    return call(CALL_MUNMAP, (long)from, count * PAGE, 0, 0);
}

static long protect_pages(volatile char *from, long count, long prot) {
    return call(CALL_MPROTECT, (long)from, count * PAGE, prot, 0);
}

/* Whether the kernel can read a byte there. */
static long kernel_reads(volatile char *at) {
    return call(CALL_WRITE, STANDARD_OUTPUT, (long)at, 1, 0) == 1;
}

static struct thread other;
static volatile uint32_t is_there;
static volatile char *shared;

/* Says that it is there, and then stores to the page. */
static void store_late(void *unused) {
    (void)unused;
    is_there = 1;
    *shared = 'x';
}

int main(void) {
    volatile char *pages = map_pages(3);
    pages[0] = 'a';
    pages[PAGE] = 'b';
    pages[2 * PAGE] = '\n';

    unmap_pages(pages + PAGE, 1);
    write_line("hole is read ", kernel_reads(pages + PAGE));
    volatile char *again = map_pages(1);
    write_line("hole is filled ", again == pages + PAGE);
    write_line("with ", again[0]);

    protect_pages(pages, 1, PROT_NONE);
    write_line("protected page is read ", kernel_reads(pages));
    protect_pages(pages, 1, PROT_READ);
    write_line("and holds ", pages[0]);

    shared = pages + 2 * PAGE;
    start_thread(&other, store_late, NULL);
    while (!is_there)
        call(CALL_SCHED_YIELD, 0, 0, 0, 0);
    unmap_pages(shared, 1);
    join_thread(&other);
    write_text("unmapped\n");
    return 0;
}
