/* What a C library (picolibc) asks of its system here: memory for malloc, by brk(2); a lock for threads that call malloc and free at
 * once; standard output, by write(2); and the end of the program. One file of a program includes it. */
#pragma once
#include <stddef.h>
#include <stdint.h>
#include <stdio.h>

#include "locks.h"
#include "threads.h"

enum { CALL_BRK = 214 };

/* Moves the break by so many bytes, and gives the old one; -1 where it can't be moved. brk(2) always answers the break. */
void *sbrk(ptrdiff_t by) {
    long old = call(CALL_BRK, 0, 0, 0, 0);
    return call(CALL_BRK, old + by, 0, 0, 0) == old + by ? (void *)old : (void *)-1;
}

/* The library's one lock, which malloc, free and atexit take. The library's own doesn't lock. */
struct __lock {
    struct nested_lock nested;
} __lock___libc_recursive_mutex;

void __retarget_lock_acquire_recursive(struct __lock *lock) {
    take_nested_lock(&lock->nested);
}

void __retarget_lock_release_recursive(struct __lock *lock) {
    give_nested_lock(&lock->nested);
}

/* What the thread has printed of its line. Each thread has a line of its own, so lines of two threads don't mix. */
static _Thread_local struct {
    size_t length;
    char bytes[128];
} own_line;

/* Writes what the thread has printed so far: fflush(stdout). */
static int write_own_line(FILE *file) {
    (void)file;
    write_bytes(own_line.bytes, own_line.length);
    own_line.length = 0;
    return 0;
}

/* A byte of standard output: a line is written as a whole, and a long one in parts. */
static int put_byte(char byte, FILE *file) {
    own_line.bytes[own_line.length++] = byte;
    if (byte == '\n' || own_line.length == sizeof own_line.bytes)
        write_own_line(file);
    return (unsigned char)byte;
}

static FILE console = FDEV_SETUP_STREAM(put_byte, NULL, write_own_line, _FDEV_SETUP_WRITE);
FILE *const stdout = &console;
FILE *const stderr = &console;

/* Ends the program, with all its threads. A line that the thread has begun is written first; one of another thread is lost. */
_Noreturn void _exit(int status) {
    if (own_line.length != 0)
        write_own_line(stdout);
    for (;;)
        call(CALL_EXIT_GROUP, status, 0, 0, 0);
}

/* With -DKEEP_FREED -Wl,--wrap=free,--wrap=malloc (rvcc --picolibc gives them): what is freed is filled with FREED_BYTE and kept back
 * until FREED_KEPT other blocks have been freed, or memory runs out. So a read of freed memory shows, and a block that is freed twice
 * ends the run. */
#ifdef KEEP_FREED
#include <malloc.h>
enum { FREED_BYTE = 0xdd, FREED_KEPT = 64 };

/* The blocks that are kept back: the next one goes to slot freed_count % FREED_KEPT. An empty slot has no block. */
struct freed_block {
    void *block;
    size_t length;
} freed_blocks[FREED_KEPT];
size_t freed_count;

/* The library's own functions, by the names by which it calls them itself. */
void *__malloc_malloc(size_t length);
void __malloc_free(void *block);

/* Writes an address behind a text, and ends the run as a failed check does. */
static _Noreturn __attribute__((noinline, cold)) void refuse_free(const void *block) {
    char line[] = "free: 0x................ was freed before\n";
    for (int digit = 0; digit < 16; digit++)
        line[8 + digit] = "0123456789abcdef"[(uintptr_t)block >> (60 - 4 * digit) & 15];
    write_bytes(line, sizeof line - 1);
    __asm__ volatile("ebreak" : : : "memory");
    __builtin_unreachable();
}

static int is_kept(const void *block) {
    for (int slot = 0; slot < FREED_KEPT; slot++)
        if (freed_blocks[slot].block == block)
            return 1;
    return 0;
}

/* Fills a block by words. The library's memset goes by bytes, and the compiler would call it here. */
static void fill_freed(void *block, size_t length) {
    for (size_t at = 0; at + sizeof(uint64_t) <= length; at += sizeof(uint64_t))
        *(volatile uint64_t *)((char *)block + at) = FREED_BYTE * (~0ul / 0xff);
    for (size_t at = length / sizeof(uint64_t) * sizeof(uint64_t); at < length; at++)
        ((volatile unsigned char *)block)[at] = FREED_BYTE;
}

/* Takes a block into the slot that has its turn, and gives back the one that was there. */
static void keep_freed(void *block) {
    struct freed_block *slot = &freed_blocks[freed_count++ % FREED_KEPT];
    void *oldest = slot->block;
    *slot = (struct freed_block){block, malloc_usable_size(block)};
    fill_freed(block, slot->length);
    if (oldest != NULL)
        __malloc_free(oldest);
}

/* free(3). The program's calls come here, and the library's. */
void __wrap_free(void *block) {
    if (block == NULL)
        return;
    __retarget_lock_acquire_recursive(&__lock___libc_recursive_mutex);
    if (is_kept(block))
        refuse_free(block);
    keep_freed(block);
    __retarget_lock_release_recursive(&__lock___libc_recursive_mutex);
}

/* Gives back all that is kept: whether there was some. */
static int release_freed(void) {
    int was_some = 0;
    for (int slot = 0; slot < FREED_KEPT; slot++)
        if (freed_blocks[slot].block != NULL) {
            __malloc_free(freed_blocks[slot].block);
            freed_blocks[slot] = (struct freed_block){NULL, 0};
            was_some = 1;
        }
    return was_some;
}

/* malloc(3): where there is no more memory, what is kept back is used again. */
void *__wrap_malloc(size_t length) {
    __retarget_lock_acquire_recursive(&__lock___libc_recursive_mutex);
    void *block = __malloc_malloc(length);
    if (block == NULL && release_freed())
        block = __malloc_malloc(length);
    __retarget_lock_release_recursive(&__lock___libc_recursive_mutex);
    return block;
}
#endif
