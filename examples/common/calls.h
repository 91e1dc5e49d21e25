/* The one system call that the C examples make by themselves, and numbers as text. */
#pragma once
#include <stddef.h>
#include <stdint.h>
enum { CALL_WRITE = 64, STANDARD_OUTPUT = 1 };

/* write(2): the number of bytes written, or a negative error number. */
static inline long write_bytes(const void *bytes, size_t length) {
    register long a0 asm("a0") = STANDARD_OUTPUT;
    register const void *a1 asm("a1") = bytes;
    register size_t a2 asm("a2") = length;
    register long a7 asm("a7") = CALL_WRITE;
    asm volatile("ecall" : "+r"(a0) : "r"(a1), "r"(a2), "r"(a7) : "memory");
    return a0;
}

/* Writes the bytes of a text up to its zero. */
static inline void write_text(const char *text) {
    size_t length = 0;
    while (text[length] != 0)
        length++;
    write_bytes(text, length);
}

/* Writes a label, a number in decimal, and a newline. */
static inline void write_line(const char *label, uint64_t number) {
    char digits[21];
    size_t at = sizeof digits;
    digits[--at] = '\n';
    do {
        digits[--at] = '0' + number % 10;
        number /= 10;
    } while (number != 0);
    write_text(label);
    write_bytes(digits + at, sizeof digits - at);
}
