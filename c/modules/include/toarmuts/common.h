/*
 * Definitions that the headers of the memory modules share. The proved calls are built for x86-64 and aarch64. For Cortex-M their module is
 * rewritten and tested, and no proof covers that: docs/boards.md.
 */
#ifndef TOARMUTS_COMMON_H
#define TOARMUTS_COMMON_H

#include <stdbool.h>
#include <stddef.h>
#include <stdint.h>

/* On Cortex-M, little-endian with pointers of 32 bits; elsewhere with pointers of 64 bits. */
#if defined(__ARM_EABI__) && __ARM_ARCH_PROFILE == 'M' && !defined(__ARM_BIG_ENDIAN)
#define TOARMUTS_CORTEX_M 1
#else
#define TOARMUTS_CORTEX_M 0
#endif

#if !TOARMUTS_CORTEX_M && (!(defined(__x86_64__) || defined(__aarch64__)) || UINTPTR_MAX != 0xffffffffffffffff)
#error "toarmuts_modules: built for x86-64 and aarch64, with pointers of 64 bits, and for little-endian Cortex-M"
#endif

/* A condition that the compiler checks, in C99, C11 and C++. */
#if defined(__cplusplus)
#define TOARMUTS_ASSERT(condition, text) static_assert(condition, text)
#else
#define TOARMUTS_ASSERT(condition, text) __extension__ _Static_assert(condition, text)
#endif

/* Blocks begin at multiples of this, the alignment of max_align_t on x86-64 and aarch64, so a block may hold any object. */
#define TOARMUTS_ALIGNMENT 16

/* n, rounded up to a multiple of the alignment. */
#define TOARMUTS_ALIGNED(n) (((n) + (TOARMUTS_ALIGNMENT - 1)) / TOARMUTS_ALIGNMENT * TOARMUTS_ALIGNMENT)

/*
 * Bytes with this alignment. They are a char array in a union, so that a compiler allows an object of any type there.
 */
#define TOARMUTS_BYTES(name, size)                                               \
  union {                                                                        \
    unsigned char bytes[size];                                                   \
    __attribute__((aligned(TOARMUTS_ALIGNMENT))) unsigned char aligned_as_block; \
    long double aligned_as_long_double;                                          \
    long long aligned_as_long_long;                                              \
    void *aligned_as_pointer;                                                    \
  } name

#ifdef __cplusplus
#define TOARMUTS_BEGIN extern "C" {
#define TOARMUTS_END }
#else
#define TOARMUTS_BEGIN
#define TOARMUTS_END
#endif

#endif
