/* Atomics for a memory of the extension Ztso, to be given by `-include`: the names of GCC's `__atomic_*`, and those on which <stdatomic.h>
 * of GCC and of clang rests. They become the instructions of the psABI's table for Ztso ("RISC-V Atomics ABI"; as we know it, not compared). A
 * compiler that doesn't know Ztso makes AMOs and fences of them that empty the store buffer, so that no store is ever late.
 *
 *     load     relaxed, acquire           load                    seq_cst   fence rw,rw; load
 *     store    relaxed, release           store                   seq_cst   store; fence rw,rw
 *     fence    acquire, release, acq_rel  no instruction          seq_cst   fence rw,rw
 *     exchange, add, sub, and, or, xor    an AMO, whatever the order
 *     the same of 1 and 2 bytes, nand,
 *     compare and exchange                lr.aqrl, sc.rl, whatever the order (of 1 and 2 bytes: of the word around)
 *
 * An order that needs no instruction still holds the compiler back. The type may be any of 1, 2, 4 or 8 bytes: a number, a pointer, _Bool,
 * an enumeration, a struct. Operators on what is _Atomic (`x++`, `x = 1`) are no calls, so no macro reaches them; they are seq_cst, and
 * what the compilers make of those hides nothing that this table shows. The macros are for C; C++ and assembler aren't changed. */
#pragma once
#if !defined __ASSEMBLER__ && !defined __cplusplus

typedef unsigned char __attribute__((may_alias)) ztso_1;
typedef unsigned short __attribute__((may_alias)) ztso_2;
typedef unsigned __attribute__((may_alias)) ztso_4;
typedef unsigned long __attribute__((may_alias)) ztso_8;

#define ZTSO_FENCE() __asm__ volatile("fence rw, rw" : : : "memory")
#define ZTSO_COMPILER_BARRIER() __asm__ volatile("" : : : "memory")

/* The type behind a pointer, without qualifiers; and what lies there as a number of as many bytes. */
#define ZTSO_TYPE(at) __typeof__((void)0, *(at))
#define ZTSO_BITS(qualifiers, at)                                                                                            \
    (*__builtin_choose_expr(sizeof *(at) == 8, (qualifiers ztso_8 *)(at),                                                    \
      __builtin_choose_expr(sizeof *(at) == 4, (qualifiers ztso_4 *)(at),                                                    \
      __builtin_choose_expr(sizeof *(at) == 2, (qualifiers ztso_2 *)(at),                                                    \
      __builtin_choose_expr(sizeof *(at) == 1, (qualifiers ztso_1 *)(at), (struct ztso_atomics_have_1_2_4_or_8_bytes *)(at))))))

/* Loads, stores and fences. */

#define __atomic_load(from, to, order)                                                                                       \
    __extension__({                                                                                                          \
        __auto_type ztso_from = (from);                                                                                      \
        __auto_type ztso_to = (to);                                                                                          \
        int ztso_load_order = (order);                                                                                       \
        if (ztso_load_order == __ATOMIC_SEQ_CST)                                                                             \
            ZTSO_FENCE();                                                                                                    \
        ZTSO_BITS(, ztso_to) = ZTSO_BITS(const volatile, ztso_from);                                                         \
        if (ztso_load_order != __ATOMIC_RELAXED)                                                                             \
            ZTSO_COMPILER_BARRIER();                                                                                         \
    })

#define __atomic_load_n(from, order)                                                                                         \
    __extension__({                                                                                                          \
        __auto_type ztso_object = (from);                                                                                    \
        ZTSO_TYPE(ztso_object) ztso_value;                                                                                   \
        __atomic_load(ztso_object, &ztso_value, order);                                                                      \
        ztso_value;                                                                                                          \
    })

#define __atomic_store(to, from, order)                                                                                      \
    __extension__({                                                                                                          \
        __auto_type ztso_to = (to);                                                                                          \
        __auto_type ztso_from = (from);                                                                                      \
        int ztso_store_order = (order);                                                                                      \
        if (ztso_store_order != __ATOMIC_RELAXED)                                                                            \
            ZTSO_COMPILER_BARRIER();                                                                                         \
        ZTSO_BITS(volatile, ztso_to) = ZTSO_BITS(, ztso_from);                                                               \
        if (ztso_store_order == __ATOMIC_SEQ_CST)                                                                            \
            ZTSO_FENCE();                                                                                                    \
    })

#define __atomic_store_n(to, value, order)                                                                                   \
    __extension__({                                                                                                          \
        __auto_type ztso_object = (to);                                                                                      \
        ZTSO_TYPE(ztso_object) ztso_value = (value);                                                                         \
        __atomic_store(ztso_object, &ztso_value, order);                                                                     \
    })

#define __atomic_thread_fence(order)                                                                                         \
    __extension__({                                                                                                          \
        int ztso_fence_order = (order);                                                                                      \
        if (ztso_fence_order == __ATOMIC_SEQ_CST)                                                                            \
            ZTSO_FENCE();                                                                                                    \
        else if (ztso_fence_order != __ATOMIC_RELAXED)                                                                       \
            ZTSO_COMPILER_BARRIER();                                                                                         \
    })

#define __atomic_signal_fence(order) __extension__({ (void)(order); ZTSO_COMPILER_BARRIER(); })

/* An AMO, and a compare and exchange, on an object of a size (w or d). Each gives what stood there before, and is a barrier for the
 * compiler. Objects of w are compared as LR loads them, with their sign. */
#define ZTSO_AMO(operation, size, object, operand)                                                                           \
    __extension__({                                                                                                          \
        long ztso_was;                                                                                                       \
        __asm__ volatile(operation "." size " %0, %z2, %1"                                                                   \
                         : "=r"(ztso_was), "+A"(object)                                                                      \
                         : "rJ"((long)(operand))                                                                             \
                         : "memory");                                                                                        \
        (unsigned long)ztso_was;                                                                                             \
    })

#define ZTSO_COMPARE(size, object, expected, desired)                                                                        \
    __extension__({                                                                                                          \
        long ztso_was, ztso_failed;                                                                                          \
        __asm__ volatile("0: lr." size ".aqrl %0, %2\n"                                                                      \
                         "   bne %0, %z3, 1f\n"                                                                              \
                         "   sc." size ".rl %1, %z4, %2\n"                                                                   \
                         "   bnez %1, 0b\n"                                                                                  \
                         "1:"                                                                                                \
                         : "=&r"(ztso_was), "=&r"(ztso_failed), "+A"(object)                                                 \
                         : "rJ"((long)(expected)), "rJ"((long)(desired))                                                     \
                         : "memory");                                                                                        \
        (unsigned long)ztso_was;                                                                                             \
    })

/* An object of 1 or 2 bytes whose bits are `ztso_bits` gets the bits `changed` where `wanted` holds: the word around is exchanged, and
 * tried again where somebody was faster. It gives the bits before. */
#define ZTSO_CHANGE_SMALL(at, wanted, changed)                                                                               \
    __extension__({                                                                                                          \
        volatile ztso_4 *ztso_around = (volatile ztso_4 *)((unsigned long)(at) & ~3ul);                                      \
        unsigned ztso_shift = ((unsigned long)(at) & 3) * 8;                                                                 \
        unsigned ztso_mask = (sizeof *(at) == 1 ? 0xffu : 0xffffu) << ztso_shift, ztso_all, ztso_next;                       \
        unsigned long ztso_bits;                                                                                             \
        __asm__("" : "+r"(ztso_around)); /* else GCC warns that the word goes past the object */                             \
        do {                                                                                                                 \
            ztso_all = *ztso_around;                                                                                         \
            ztso_bits = (ztso_all & ztso_mask) >> ztso_shift;                                                                \
            if (!(wanted))                                                                                                   \
                break;                                                                                                       \
            ztso_next = (ztso_all & ~ztso_mask) | ((unsigned)(changed) << ztso_shift & ztso_mask);                           \
        } while ((unsigned)ZTSO_COMPARE("w", *ztso_around, (int)ztso_all, (int)ztso_next) != ztso_all);                      \
        ztso_bits;                                                                                                           \
    })

/* Exchanges. */

#define __atomic_exchange(at, from, to, order)                                                                               \
    __extension__({                                                                                                          \
        __auto_type ztso_at = (at);                                                                                          \
        __auto_type ztso_from = (from);                                                                                      \
        __auto_type ztso_to = (to);                                                                                          \
        unsigned long ztso_new = ZTSO_BITS(, ztso_from);                                                                     \
        (void)(order);                                                                                                       \
        ZTSO_BITS(, ztso_to) = sizeof *ztso_at == 8 ? ZTSO_AMO("amoswap", "d", *(volatile ztso_8 *)ztso_at, ztso_new)        \
                               : sizeof *ztso_at == 4 ? ZTSO_AMO("amoswap", "w", *(volatile ztso_4 *)ztso_at, ztso_new)      \
                                                      : ZTSO_CHANGE_SMALL(ztso_at, 1, ztso_new);                             \
    })

#define __atomic_exchange_n(at, value, order)                                                                                \
    __extension__({                                                                                                          \
        __auto_type ztso_object = (at);                                                                                      \
        ZTSO_TYPE(ztso_object) ztso_value = (value), ztso_before;                                                            \
        __atomic_exchange(ztso_object, &ztso_value, &ztso_before, order);                                                    \
        ztso_before;                                                                                                         \
    })

#define __atomic_compare_exchange(at, expected, desired, weak, success, failure)                                             \
    __extension__({                                                                                                          \
        __auto_type ztso_at = (at);                                                                                          \
        __auto_type ztso_expected = (expected);                                                                              \
        __auto_type ztso_desired = (desired);                                                                                \
        unsigned long ztso_old = ZTSO_BITS(, ztso_expected), ztso_new = ZTSO_BITS(, ztso_desired), ztso_there;               \
        int ztso_is_seq_cst = (success) == __ATOMIC_SEQ_CST || (failure) == __ATOMIC_SEQ_CST;                                \
        (void)(weak);                                                                                                        \
        if (sizeof *ztso_at < 4 && ztso_is_seq_cst)                                                                          \
            ZTSO_FENCE(); /* where it isn't as expected, nothing but a load is made */                                       \
        ztso_there =                                                                                                         \
            sizeof *ztso_at == 8 ? ZTSO_COMPARE("d", *(volatile ztso_8 *)ztso_at, ztso_old, ztso_new)                        \
            : sizeof *ztso_at == 4                                                                                           \
                ? (unsigned)ZTSO_COMPARE("w", *(volatile ztso_4 *)ztso_at, (int)ztso_old, (int)ztso_new)                     \
                : ZTSO_CHANGE_SMALL(ztso_at, ztso_bits == ztso_old, ztso_new);                                               \
        ZTSO_COMPILER_BARRIER();                                                                                             \
        if (ztso_there != ztso_old)                                                                                          \
            ZTSO_BITS(, ztso_expected) = ztso_there;                                                                         \
        (_Bool)(ztso_there == ztso_old);                                                                                     \
    })

#define __atomic_compare_exchange_n(at, expected, value, weak, success, failure)                                             \
    __extension__({                                                                                                          \
        __auto_type ztso_object = (at);                                                                                      \
        ZTSO_TYPE(ztso_object) ztso_value = (value);                                                                         \
        __atomic_compare_exchange(ztso_object, expected, &ztso_value, weak, success, failure);                               \
    })

#define __atomic_test_and_set(at, order) ((_Bool)__atomic_exchange_n((volatile ztso_1 *)(at), 1, order))
#define __atomic_clear(at, order) __atomic_store_n((volatile ztso_1 *)(at), 0, order)

/* Operations: by an AMO and its operand, or on 1 or 2 bytes by the operator; `given` is the bits of what is given. */

#define ZTSO_OPERATE(amo, operand, operator, at, by, order, given)                                                           \
    __extension__({                                                                                                          \
        __auto_type ztso_at = (at);                                                                                          \
        unsigned long ztso_by = (unsigned long)(by), ztso_before;                                                            \
        ZTSO_TYPE(ztso_at) ztso_given;                                                                                       \
        (void)(order);                                                                                                       \
        ztso_before = sizeof *ztso_at == 8 ? ZTSO_AMO(amo, "d", *(volatile ztso_8 *)ztso_at, operand)                        \
                      : sizeof *ztso_at == 4 ? ZTSO_AMO(amo, "w", *(volatile ztso_4 *)ztso_at, operand)                      \
                                             : ZTSO_CHANGE_SMALL(ztso_at, 1, ztso_bits operator ztso_by);                    \
        ZTSO_BITS(, &ztso_given) = (given);                                                                                  \
        ztso_given;                                                                                                          \
    })

#define __atomic_fetch_add(at, by, order) ZTSO_OPERATE("amoadd", ztso_by, +, at, by, order, ztso_before)
#define __atomic_fetch_sub(at, by, order) ZTSO_OPERATE("amoadd", -ztso_by, -, at, by, order, ztso_before)
#define __atomic_fetch_and(at, by, order) ZTSO_OPERATE("amoand", ztso_by, &, at, by, order, ztso_before)
#define __atomic_fetch_or(at, by, order) ZTSO_OPERATE("amoor", ztso_by, |, at, by, order, ztso_before)
#define __atomic_fetch_xor(at, by, order) ZTSO_OPERATE("amoxor", ztso_by, ^, at, by, order, ztso_before)
#define __atomic_add_fetch(at, by, order) ZTSO_OPERATE("amoadd", ztso_by, +, at, by, order, ztso_before + ztso_by)
#define __atomic_sub_fetch(at, by, order) ZTSO_OPERATE("amoadd", -ztso_by, -, at, by, order, ztso_before - ztso_by)
#define __atomic_and_fetch(at, by, order) ZTSO_OPERATE("amoand", ztso_by, &, at, by, order, ztso_before & ztso_by)
#define __atomic_or_fetch(at, by, order) ZTSO_OPERATE("amoor", ztso_by, |, at, by, order, ztso_before | ztso_by)
#define __atomic_xor_fetch(at, by, order) ZTSO_OPERATE("amoxor", ztso_by, ^, at, by, order, ztso_before ^ ztso_by)

#define ZTSO_NAND(at, by, order, given)                                                                                      \
    __extension__({                                                                                                          \
        __auto_type ztso_number = (at);                                                                                      \
        ZTSO_TYPE(ztso_number) ztso_with = (by), ztso_before = __atomic_load_n(ztso_number, __ATOMIC_RELAXED), ztso_after;   \
        do                                                                                                                   \
            ztso_after = ~(ztso_before & ztso_with);                                                                         \
        while (!__atomic_compare_exchange_n(ztso_number, &ztso_before, ztso_after, 0, order, __ATOMIC_RELAXED));             \
        (given);                                                                                                             \
    })
#define __atomic_fetch_nand(at, by, order) ZTSO_NAND(at, by, order, ztso_before)
#define __atomic_nand_fetch(at, by, order) ZTSO_NAND(at, by, order, ztso_after)

#define __atomic_is_lock_free(size, at) ((void)(at), (size) == 1 || (size) == 2 || (size) == 4 || (size) == 8)

/* The older `__sync_*` are full barriers, by AMOs, LR and SC, or a fence, but for this one, which is a release. */
#define __sync_lock_release(at) ({ __auto_type ztso_lock = (at); __atomic_store_n(ztso_lock, 0, __ATOMIC_RELEASE); })

/* What <stdatomic.h> of clang rests on; that of GCC rests on the names above. Numbers that are added to a pointer count objects here. */
#ifdef __clang__
#define ZTSO_STEP(at) ((long)((ZTSO_TYPE(at))64l + 1) - 64)
#define __c11_atomic_load(at, order) __atomic_load_n(at, order)
#define __c11_atomic_store(at, value, order) __atomic_store_n(at, value, order)
#define __c11_atomic_exchange(at, value, order) __atomic_exchange_n(at, value, order)
#define __c11_atomic_compare_exchange_strong(at, expected, value, success, failure) \
    __atomic_compare_exchange_n(at, expected, value, 0, success, failure)
#define __c11_atomic_compare_exchange_weak(at, expected, value, success, failure) \
    __atomic_compare_exchange_n(at, expected, value, 1, success, failure)
#define __c11_atomic_fetch_add(at, by, order) __atomic_fetch_add(at, (long)(by) * ZTSO_STEP(at), order)
#define __c11_atomic_fetch_sub(at, by, order) __atomic_fetch_sub(at, (long)(by) * ZTSO_STEP(at), order)
#define __c11_atomic_fetch_and(at, by, order) __atomic_fetch_and(at, by, order)
#define __c11_atomic_fetch_or(at, by, order) __atomic_fetch_or(at, by, order)
#define __c11_atomic_fetch_xor(at, by, order) __atomic_fetch_xor(at, by, order)
#define __c11_atomic_thread_fence(order) __atomic_thread_fence(order)
#define __c11_atomic_signal_fence(order) __atomic_signal_fence(order)
#endif

#endif
