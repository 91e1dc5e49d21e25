// A handler of SIGSEGV reads from its siginfo_t at which address, and moves the pc of its ucontext past the load.
// A handler of SIGUSR1 reads who sent the signal.
#define _GNU_SOURCE
#include <pthread.h>
#include <signal.h>
#include <stdint.h>
#include <stdio.h>
#include <sys/mman.h>
#include <unistd.h>

enum { INSTRUCTION_SIZE = 4, A0 = 10, SUBSTITUTE = 42 };

static char *volatile closed;
static volatile sig_atomic_t faults, is_here;
static int wrong;

static long load(const char *at) {
    long value;
    __asm__ volatile(".option push\n.option norvc\nmv a0, %1\nlb a0, 0(a0)\nmv %0, a0\n.option pop"
                     : "=r"(value)
                     : "r"(at)
                     : "a0", "memory");
    return value;
}

static void go_past(int number, siginfo_t *info, void *its_context) {
    ucontext_t *context = its_context;
    int is_closed = info->si_addr == closed && info->si_code == SEGV_ACCERR;
    int is_missing = info->si_addr == NULL && info->si_code == SEGV_MAPERR;
    wrong += number != SIGSEGV || info->si_signo != SIGSEGV || !(is_closed || is_missing);
    context->uc_mcontext.__gregs[A0] = SUBSTITUTE;
    context->uc_mcontext.__gregs[0] += INSTRUCTION_SIZE;
    faults++;
}

static void be_told(int number, siginfo_t *info, void *context) {
    (void)context;
    wrong += number != SIGUSR1 || info->si_code != SI_TKILL || info->si_pid != getpid() || info->si_uid != getuid();
    is_here = 1;
}

static void *wait_for_it(void *unused) {
    (void)unused;
    while (!is_here)
        sched_yield();
    return NULL;
}

static int catch(int number, void (*handler)(int, siginfo_t *, void *)) {
    struct sigaction action = {.sa_sigaction = handler, .sa_flags = SA_SIGINFO};
    return sigaction(number, &action, NULL);
}

int main(void) {
    pthread_t target;
    closed = mmap(NULL, 4096, PROT_NONE, MAP_PRIVATE | MAP_ANONYMOUS, -1, 0);
    if (closed == MAP_FAILED || catch(SIGSEGV, go_past) || catch(SIGUSR1, be_told))
        return 2;
    wrong += load(closed) != SUBSTITUTE || load(NULL) != SUBSTITUTE;
    if (pthread_create(&target, NULL, wait_for_it, NULL))
        return 2;
    pthread_kill(target, SIGUSR1);
    pthread_join(target, NULL);
    wrong += faults != 2;
    printf("wrong %d\n", wrong);
    return wrong != 0;
}
