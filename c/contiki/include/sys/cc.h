/* What the headers need of the compiler: gcc 7 or clang 10, in C11. */
#ifndef CC_H_
#define CC_H_

#define CC_CONCAT2(s1, s2) s1##s2
#define CC_CONCAT(s1, s2) CC_CONCAT2(s1, s2)
#define CC_CONCAT_EXT_2(s1, s2) CC_CONCAT2(s1, s2)
#define CC_CONCAT3(s1, s2, s3) s1##s2##s3
#define CC_CONCAT_EXT_3(s1, s2, s3) CC_CONCAT3(s1, s2, s3)

/* A parameter or a variable that a source may leave unused. */
#define CC_UNUSED __attribute__((unused))
#define CC_NORETURN __attribute__((noreturn))
#define CC_ALIGN(n) __attribute__((aligned(n)))
#define CC_INLINE inline
#define CC_DEPRECATED(text) __attribute__((deprecated(text)))

/* Reads or writes a variable exactly once, here. */
#define CC_ACCESS_NOW(type, variable) (*(volatile type *)&(variable))
#define CC_FORMAT(string, first) __attribute__((format(printf, string, first)))

/* In a declaration: whoever calls this gets a compile error with the reason. */
#ifdef __clang__
#define CC_REFUSED(reason) __attribute__((unavailable(reason)))
#else
#define CC_REFUSED(reason) __attribute__((error(reason)))
#endif

/* A statement: the next label is meant to be reached from above. */
#define CC_FALLTHROUGH __attribute__((fallthrough))

#ifndef MIN
#define MIN(n, m) (((n) < (m)) ? (n) : (m))
#endif
#ifndef MAX
#define MAX(n, m) (((n) < (m)) ? (m) : (n))
#endif
#ifndef ABS
#define ABS(n) (((n) < 0) ? -(n) : (n))
#endif

#endif
