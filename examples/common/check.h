/* Checks that stop the run where they fail, so that the place is the last one of the log:
 *
 *     check(count == 2);       prog.c:31: check failed: count == 2
 *     check(count, ==, 2);     prog.c:31: check failed: count == 2 (1, 2)
 *
 * A check that fails writes its line to standard output, by one write(2), and then traps by EBREAK: the run ends with `killed 5`. With
 * commas round the operator, C can tell the two values, which are written in decimal, and pointers in hexadecimal. Each is worked out
 * once. */
#pragma once
#include "calls.h"

/* The line of a failed check, as far as it has room. */
struct check_line {
    char text[160];
    size_t length;
};

static inline void check_add(struct check_line *line, const char *text) {
    while (*text != 0 && line->length < sizeof line->text - 1)
        line->text[line->length++] = *text++;
}

/* Adds a number: decimal with its sign, or hexadecimal behind 0x. */
static inline void check_add_number(struct check_line *line, long number, int is_pointer) {
    char digits[24];
    unsigned long left = number < 0 && !is_pointer ? -(unsigned long)number : (unsigned long)number, base = is_pointer ? 16 : 10;
    size_t at = sizeof digits;
    digits[--at] = 0;
    do
        digits[--at] = "0123456789abcdef"[left % base];
    while ((left /= base) != 0);
    if (is_pointer)
        digits[--at] = 'x', digits[--at] = '0';
    else if (number < 0)
        digits[--at] = '-';
    check_add(line, digits + at);
}

/* The line up to its values. The text is what stands between the brackets of `check`, without the commas round its operator. */
static inline void check_begin(struct check_line *line, const char *place, const char *text) {
    int depth = 0;
    line->length = 0;
    check_add(line, place);
    check_add(line, ": check failed: ");
    for (; *text != 0; text++) {
        char one[2] = {*text, 0};
        depth += (*text == '(') - (*text == ')');
        if (*text != ',' || depth != 0)
            check_add(line, one);
    }
}

static inline void check_write(struct check_line *line) {
    line->text[line->length++] = '\n';
    write_bytes(line->text, line->length);
}

/* Says that a condition doesn't hold. */
static __attribute__((noinline, cold, unused)) void check_say(const char *place, const char *text) {
    struct check_line line;
    check_begin(&line, place, text);
    check_write(&line);
}

/* Says that two values aren't so to one another. */
static __attribute__((noinline, cold, unused)) void check_say_values(const char *place, const char *text, long left, long right,
                                                                     int are_pointers) {
    struct check_line line;
    check_begin(&line, place, text);
    check_add(&line, " (");
    check_add_number(&line, left, are_pointers);
    check_add(&line, ", ");
    check_add_number(&line, right, are_pointers);
    check_add(&line, ")");
    check_write(&line);
}

/* The end of the run, in the line of the check. */
#define CHECK_TRAP() (__extension__({ __asm__ volatile("ebreak" : : : "memory"); __builtin_unreachable(); }))

#ifdef __FILE_NAME__
#define CHECK_FILE __FILE_NAME__
#else
#define CHECK_FILE __FILE__
#endif
#define CHECK_TEXT_OF(text) #text
#define CHECK_TEXT(text) CHECK_TEXT_OF(text)
#define CHECK_PLACE CHECK_FILE ":" CHECK_TEXT(__LINE__)

#define CHECK_CONDITION(text, condition)                              \
    do {                                                              \
        if (!(condition)) {                                           \
            check_say(CHECK_PLACE, text);                             \
            CHECK_TRAP();                                             \
        }                                                             \
    } while (0)

#define CHECK_VALUES(text, left, operation, right)                    \
    do {                                                              \
        __auto_type check_left = (left);                              \
        __auto_type check_right = (right);                            \
        if (!(check_left operation check_right)) {                    \
            check_say_values(CHECK_PLACE, text, (long)check_left, (long)check_right, __builtin_classify_type(check_left) == 5); \
            CHECK_TRAP();                                             \
        }                                                             \
    } while (0)

/* One argument, or three. */
#define CHECK_CHOSEN(first, second, third, name, ...) name
#define check(...) CHECK_CHOSEN(__VA_ARGS__, CHECK_VALUES, CHECK_HAS_1_OR_3_ARGUMENTS, CHECK_CONDITION, )(#__VA_ARGS__, __VA_ARGS__)
