/* Handlers with SA_SIGINFO. That of SIGSEGV reads at which address the thread faulted, and why. It opens a page that may not be touched,
 * and the instruction is executed again when it returns; an instruction that touches no page it goes past, by changing the pc in its
 * context. That of SIGUSR1 reads who sent the signal. */
#include "../common/siginfo.h"

enum { CALL_MMAP = 222, CALL_MPROTECT = 226 };

enum { PROT_NONE = 0, PROT_READ = 1, PROT_WRITE = 2 };

enum { MAP_PRIVATE = 0x02, MAP_ANONYMOUS = 0x20 };

enum { PAGE = 4096, PAGES = 2, STEP = PAGE / 2, INSTRUCTION_SIZE = 4, NOWHERE = 8 };

static int opened, passed, sent;
static uint64_t passed_address;
static int32_t sender;

/* Opens the page of an address; ends the process where there is none. */
static void open_page(uint64_t address) {
    if (call(CALL_MPROTECT, address / PAGE * PAGE, PAGE, PROT_READ | PROT_WRITE, 0) != 0)
        call(CALL_EXIT_GROUP, 3, 0, 0, 0);
    opened++;
}

/* The handler of SIGSEGV. */
static void mend(int signal, struct signal_info *info, struct signal_context *context) {
    if (signal != SIGSEGV || info->signal != SIGSEGV)
        call(CALL_EXIT_GROUP, 4, 0, 0, 0);
    if (info->code == CLOSED_PAGE) {
        open_page(info->address);
        return;
    }
    passed_address = info->address;
    context->pc += INSTRUCTION_SIZE;
    passed++;
}

/* The handler of SIGUSR1. */
static void note_sender(int signal, struct signal_info *info, struct signal_context *context) {
    (void)signal, (void)context;
    sender = info->sender;
    sent++;
}

/* Pages of which nothing may be touched. */
static char *closed_pages(long count) {
    register long a0 asm("a0") = 0;
    register long a1 asm("a1") = count * PAGE;
    register long a2 asm("a2") = PROT_NONE;
    register long a3 asm("a3") = MAP_PRIVATE | MAP_ANONYMOUS;
    register long a4 asm("a4") = -1;
    register long a5 asm("a5") = 0;
    register long a7 asm("a7") = CALL_MMAP;
    asm volatile("ecall" : "+r"(a0) : "r"(a1), "r"(a2), "r"(a3), "r"(a4), "r"(a5), "r"(a7) : "memory");
    return (char *)a0;
}

/* What a load from an address gives, and -1 where the handler goes past it. */
static int64_t loaded_from(uint64_t address) {
    int64_t loaded = -1;
    asm volatile("ld %0, 0(%1)" : "+&r"(loaded) : "r"(address) : "memory");
    return loaded;
}

int main(void) {
    if (set_informed_handler(SIGSEGV, mend) != 0 || set_informed_handler(SIGUSR1, note_sender) != 0)
        return 3;
    volatile char *pages = closed_pages(PAGES);
    int total = 0;
    for (int at = 0; at < PAGES * PAGE; at += STEP)
        pages[at] = 1 + at / STEP;
    for (int at = 0; at < PAGES * PAGE; at += STEP)
        total += pages[at];
    int64_t loaded = loaded_from(NOWHERE);
    send_signal(1, SIGUSR1);
    write_line("pages opened ", opened);
    write_line("total ", total);
    write_line("no page at ", passed_address);
    write_line("sent by process ", sender);
    int is_right = opened == PAGES && total == 10 && passed == 1 && passed_address == NOWHERE && loaded == -1 && sent == 1;
    return is_right && sender == 1 ? 0 : 1;
}
