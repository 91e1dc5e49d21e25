/* What GCC calls by itself in a program without a C library. Its manual (Standards) asks such a program for memcpy, memmove, memset and
 * memcmp; and a loop that looks for a zero may become a call of strlen. All but strlen go by words where the addresses are multiples of
 * a word, and else by bytes. */
#include <stddef.h>

#ifndef __clang__ /* Else GCC may find in a loop below what its own function is for, and make it a call of that function, which never ends. */
#pragma GCC optimize("no-tree-loop-distribute-patterns")
#endif
/* Kept where nothing calls it yet: with -flto GCC leaves out what nobody calls, and makes calls of its own after that. */
#define KEPT __attribute__((used))

/* Eight bytes, whatever their type is. */
typedef unsigned long __attribute__((may_alias)) word;

enum { WORD = sizeof(word) };

static inline int is_aligned(const void *at) {
    return (size_t)at % WORD == 0;
}

/* Copies from the first byte to the last. */
static inline void copy_forwards(char *to, const char *from, size_t length) {
    if (is_aligned(to) && is_aligned(from))
        for (; length >= WORD; to += WORD, from += WORD, length -= WORD)
            *(word *)to = *(const word *)from;
    for (; length != 0; length--)
        *to++ = *from++;
}

/* Copies from the last byte to the first: the bytes behind the last whole word, and then the words. */
static inline void copy_backwards(char *to, const char *from, size_t length) {
    size_t words = is_aligned(to) && is_aligned(from) ? length / WORD * WORD : 0;
    for (; length > words; length--)
        to[length - 1] = from[length - 1];
    for (; length != 0; length -= WORD)
        *(word *)(to + length - WORD) = *(const word *)(from + length - WORD);
}

/* Copies bytes to a place that doesn't overlap them. */
KEPT void *memcpy(void *restrict to, const void *restrict from, size_t length) {
    copy_forwards(to, from, length);
    return to;
}

/* Copies bytes to a place that may overlap them: backwards where it begins inside them, so that none is written over before it is read. */
KEPT void *memmove(void *to, const void *from, size_t length) {
    if ((size_t)to - (size_t)from < length)
        copy_backwards(to, from, length);
    else
        copy_forwards(to, from, length);
    return to;
}

/* Makes each byte the low byte of the value. */
KEPT void *memset(void *to, int value, size_t length) {
    unsigned char *next = to, byte = value;
    if (is_aligned(to)) {
        word bytes = byte * (~0ul / 0xff); /* the byte, eight times */
        for (; length >= WORD; next += WORD, length -= WORD)
            *(word *)next = bytes;
    }
    for (; length != 0; length--)
        *next++ = byte;
    return to;
}

/* Compares by the first byte that differs: below 0 where it is less in the one, above 0 where it is greater, 0 where none differs. */
KEPT int memcmp(const void *one, const void *other, size_t length) {
    const unsigned char *left = one, *right = other;
    if (is_aligned(left) && is_aligned(right))
        for (; length >= WORD && *(const word *)left == *(const word *)right; length -= WORD)
            left += WORD, right += WORD;
    for (; length != 0; length--, left++, right++)
        if (*left != *right)
            return *left - *right;
    return 0;
}

/* How many bytes a text has before its zero. */
KEPT size_t strlen(const char *text) {
    size_t length = 0;
    while (text[length] != 0)
        length++;
    return length;
}
