/* What each atomic gives and leaves, on objects of each size with neighbours that must stay as they are. Built with -DSTDATOMIC, by the names
 * of <stdatomic.h>, else by those of GCC. */
#include "check.h"

#define NEIGHBOUR 0x5a

#ifdef STDATOMIC
#include <stdatomic.h>
#include <stdbool.h>
#define OF(type) _Atomic(type)
#define LOAD(at) atomic_load_explicit(at, memory_order_acquire)
#define STORE(at, value) atomic_store_explicit(at, value, memory_order_release)
#define EXCHANGE(at, value) atomic_exchange(at, value)
#define COMPARE(at, expected, value) atomic_compare_exchange_strong(at, expected, value)
#define FETCH(operation, at, value) atomic_fetch_##operation(at, value)
#define FETCH_RELAXED(operation, at, value) atomic_fetch_##operation##_explicit(at, value, memory_order_relaxed)
#else
#define OF(type) type
#define LOAD(at) __atomic_load_n(at, __ATOMIC_ACQUIRE)
#define STORE(at, value) __atomic_store_n(at, value, __ATOMIC_RELEASE)
#define EXCHANGE(at, value) __atomic_exchange_n(at, value, __ATOMIC_SEQ_CST)
#define COMPARE(at, expected, value) __atomic_compare_exchange_n(at, expected, value, 0, __ATOMIC_SEQ_CST, __ATOMIC_SEQ_CST)
#define FETCH(operation, at, value) __atomic_fetch_##operation(at, value, __ATOMIC_SEQ_CST)
#define FETCH_RELAXED(operation, at, value) __atomic_fetch_##operation(at, value, __ATOMIC_RELAXED)
#endif

#define LESS(type, value, by) (type)((unsigned long)(value) - (by))

/* An object of a type of numbers between two neighbours. The values have their highest bit set, where signs would show. */
#define TRY_NUMBER(type)                                                  \
    do {                                                                  \
        static struct {                                                   \
            unsigned char before[8];                                      \
            OF(type) it;                                                  \
            unsigned char behind[8];                                      \
        } object;                                                         \
        for (int at = 0; at < 8; at++)                                    \
            object.before[at] = object.behind[at] = NEIGHBOUR;            \
        const type low = 3, high = (type)((type)1 << (sizeof(type) * 8 - 1)); \
        type expected = 0;                                                \
        STORE(&object.it, high);                                          \
        check(LOAD(&object.it), ==, high);                                \
        check(EXCHANGE(&object.it, low), ==, high);                       \
        check(FETCH(add, &object.it, high), ==, low);                     \
        check(FETCH_RELAXED(or, &object.it, 4), ==, (type)(high + low));  \
        check(FETCH(sub, &object.it, 8), ==, (type)(high + 7));           \
        check(FETCH(and, &object.it, (type)~1), ==, LESS(type, high, 1));    \
        check(FETCH(xor, &object.it, (type)-1), ==, LESS(type, high, 2));    \
        check(COMPARE(&object.it, &expected, low), ==, 0);                \
        check(expected, ==, (type)~LESS(type, high, 2));                    \
        check(COMPARE(&object.it, &expected, low), ==, 1);                \
        check(expected, ==, (type)~LESS(type, high, 2));                    \
        check(LOAD(&object.it), ==, low);                                 \
        TRY_MORE(type);                                                   \
        for (int at = 0; at < 8; at++)                                    \
            check(object.before[at] == NEIGHBOUR && object.behind[at] == NEIGHBOUR); \
    } while (0)

#ifdef STDATOMIC
#define TRY_MORE(type) atomic_init(&object.it, 0)
#else
/* What has no name in <stdatomic.h>; the object is 3. */
#define TRY_MORE(type)                                                                   \
    do {                                                                                 \
        type other = 1, old = 0;                                                         \
        check(__atomic_add_fetch(&object.it, -1, __ATOMIC_SEQ_CST), ==, (type)2);        \
        check(__atomic_sub_fetch(&object.it, 3, __ATOMIC_RELAXED), ==, (type)-1);        \
        check(__atomic_and_fetch(&object.it, 6, __ATOMIC_RELEASE), ==, (type)6);         \
        check(__atomic_or_fetch(&object.it, 9, __ATOMIC_ACQUIRE), ==, (type)15);         \
        check(__atomic_xor_fetch(&object.it, 5, __ATOMIC_ACQ_REL), ==, (type)10);        \
        check(__atomic_fetch_nand(&object.it, 3, __ATOMIC_SEQ_CST), ==, (type)10);       \
        check(__atomic_nand_fetch(&object.it, 7, __ATOMIC_SEQ_CST), ==, (type)-6);       \
        __atomic_load(&object.it, &old, __ATOMIC_SEQ_CST);                               \
        check(old, ==, (type)-6);                                                        \
        __atomic_store(&object.it, &other, __ATOMIC_SEQ_CST);                            \
        __atomic_exchange(&object.it, &old, &other, __ATOMIC_SEQ_CST);                   \
        check(other, ==, (type)1);                                                       \
        check(__atomic_compare_exchange(&object.it, &old, &other, 1, __ATOMIC_ACQUIRE, __ATOMIC_RELAXED)); \
        check(object.it, ==, (type)1);                                                   \
        __sync_lock_release(&object.it);                                                 \
        check(object.it, ==, (type)0);                                                   \
    } while (0)
#endif

enum colour { RED, GREEN, BLUE };

static void try_others(void) {
    static OF(int *) pointer;
    static OF(_Bool) flag;
    static OF(enum colour) colour;
    static int numbers[4];
    STORE(&pointer, numbers);
    check(EXCHANGE(&pointer, numbers + 2), ==, &numbers[0]);
    int *expected = numbers + 2;
    check(COMPARE(&pointer, &expected, NULL));
    check(LOAD(&pointer), ==, (int *)NULL);
    STORE(&flag, 4);
    check(EXCHANGE(&flag, 0), ==, 1);
    check(LOAD(&flag), ==, 0);
    STORE(&colour, BLUE);
    check(EXCHANGE(&colour, GREEN) == BLUE && LOAD(&colour) == GREEN);
}

struct pair {
    int first, second;
};

/* A struct of 8 bytes is loaded and stored as a whole. */
static void try_struct(void) {
    static OF(struct pair) object;
    struct pair one = {1, -2}, two = {3, 4}, got;
#ifdef STDATOMIC
    atomic_store(&object, one);
    got = atomic_exchange(&object, two);
    check(atomic_compare_exchange_strong(&object, &two, one));
    two = atomic_load(&object);
#else
    __atomic_store(&object, &one, __ATOMIC_RELEASE);
    __atomic_exchange(&object, &two, &got, __ATOMIC_RELAXED);
    check(__atomic_compare_exchange(&object, &two, &one, 0, __ATOMIC_SEQ_CST, __ATOMIC_SEQ_CST));
    __atomic_load(&object, &two, __ATOMIC_ACQUIRE);
#endif
    check(got.first, ==, 1);
    check(got.second, ==, -2);
    check(two.first == 1 && two.second == -2);
}

static void try_flag(void) {
#ifdef STDATOMIC
    static atomic_flag flag = ATOMIC_FLAG_INIT;
    check(!atomic_flag_test_and_set(&flag) && atomic_flag_test_and_set_explicit(&flag, memory_order_acquire));
    atomic_flag_clear_explicit(&flag, memory_order_release);
    check(!atomic_flag_test_and_set(&flag));
    atomic_thread_fence(memory_order_acq_rel);
    atomic_signal_fence(memory_order_seq_cst);
#else
    static struct {
        unsigned char before, it, behind;
    } flag;
    check(!__atomic_test_and_set(&flag.it, __ATOMIC_ACQUIRE) && __atomic_test_and_set(&flag.it, __ATOMIC_SEQ_CST));
    check(!flag.before && !flag.behind);
    __atomic_clear(&flag.it, __ATOMIC_RELEASE);
    check(!__atomic_test_and_set(&flag.it, __ATOMIC_RELAXED));
    __atomic_thread_fence(__ATOMIC_ACQ_REL);
    __atomic_signal_fence(__ATOMIC_SEQ_CST);
    check(__atomic_is_lock_free(2, &flag) && !__atomic_is_lock_free(16, &flag));
#endif
}

/* A name inside a name, with an argument that is worked out once. */
static void try_nested(void) {
    static OF(unsigned) words[2];
    int at = 0;
    STORE(&words[at++], FETCH(add, &words[1], 7) + 1);
    check(at, ==, 1);
    check(EXCHANGE(&words[LOAD(&words[0])], LOAD(&words[0])), ==, 7u);
    check(LOAD(&words[1]), ==, 1u);
}

int main(void) {
    TRY_NUMBER(unsigned char);
    TRY_NUMBER(signed char);
    TRY_NUMBER(unsigned short);
    TRY_NUMBER(short);
    TRY_NUMBER(unsigned);
    TRY_NUMBER(int);
    TRY_NUMBER(unsigned long);
    TRY_NUMBER(long);
    try_others();
    try_struct();
    try_flag();
    try_nested();
    write_text("all as they should be\n");
    return 0;
}
