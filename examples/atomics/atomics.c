/* The A extension on one thread: a spin lock by AMOSWAP, compare and swap by LR and SC, the other AMOs, and fences. */
#include "../common/calls.h"

enum { ROUNDS = 50 };

static uint32_t lock;
static uint64_t counter, guarded;
static int32_t bits = 0x0ff0;
static int64_t least = 5, greatest = 5;
static uint64_t unsigned_least = 5, unsigned_greatest = 5;

/* Takes the lock; its AMOSWAP has acquire semantics. */
static void take_lock(uint32_t *word) {
    uint32_t was;
    do
        asm volatile("amoswap.w.aq %0, %1, (%2)" : "=r"(was) : "r"(1), "r"(word) : "memory");
    while (was != 0);
}

/* Gives the lock back; its AMOSWAP has release semantics. */
static void give_lock(uint32_t *word) {
    asm volatile("amoswap.w.rl zero, zero, (%0)" : : "r"(word) : "memory");
}

/* Where the word is `wanted` it becomes `next`; answers what it was. LR and SC are tried again until SC succeeds. */
static uint64_t compare_and_swap(uint64_t *word, uint64_t wanted, uint64_t next) {
    uint64_t was, failed;
    asm volatile("1: lr.d.aqrl %0, (%2)\n"
                 "   bne %0, %3, 2f\n"
                 "   sc.d.rl %1, %4, (%2)\n"
                 "   bnez %1, 1b\n"
                 "2:"
                 : "=&r"(was), "=&r"(failed)
                 : "r"(word), "r"(wanted), "r"(next)
                 : "memory");
    return was;
}

/* Adds one to the counter by compare and swap. */
static void count(void) {
    uint64_t was = counter;
    for (;;) {
        uint64_t seen = compare_and_swap(&counter, was, was + 1);
        if (seen == was)
            return;
        was = seen;
    }
}

/* One AMO: the old word goes to the variable `was`. */
#define AMO(instruction, was, word, value) \
    asm volatile(instruction " %0, %1, (%2)" : "=r"(was) : "r"(value), "r"(word) : "memory")

static uint64_t other_amos(void) {
    uint64_t was, sum = 0;
    AMO("amoadd.w", was, &bits, 0x10);
    sum += was;
    AMO("amoor.w", was, &bits, 1);
    sum += was;
    AMO("amoand.w", was, &bits, -16);
    sum += was;
    AMO("amoxor.w", was, &bits, -1);
    sum += was;
    AMO("amomin.d", was, &least, -3L);
    AMO("amomax.d", was, &greatest, -3L);
    AMO("amominu.d", was, &unsigned_least, -3L);
    AMO("amomaxu.d", was, &unsigned_greatest, -3L);
    return sum;
}

int main(void) {
    for (int round = 0; round < ROUNDS; round++) {
        take_lock(&lock);
        guarded += 2;
        give_lock(&lock);
        asm volatile("fence.tso" : : : "memory");
        count();
        asm volatile("fence rw, rw" : : : "memory");
    }
    write_line("guarded ", guarded);
    write_line("counter ", counter);
    write_line("old words ", other_amos());
    write_line("bits ", (uint32_t)bits);
    write_line("least ", -least);
    write_line("greatest ", greatest);
    write_line("unsigned least ", unsigned_least);
    write_line("unsigned greatest ", unsigned_greatest);
    return 0;
}
