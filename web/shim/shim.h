/* What the files of the shim share. The kit's clang comes without headers, so types and library calls are declared here. */
#ifndef SHIM_H
#define SHIM_H

typedef __SIZE_TYPE__ size_t;
typedef __UINTPTR_TYPE__ uintptr_t;
typedef __UINT8_TYPE__ uint8_t;
typedef __UINT16_TYPE__ uint16_t;
typedef __UINT32_TYPE__ uint32_t;
typedef __INT64_TYPE__ int64_t;
typedef __UINT64_TYPE__ uint64_t;

#define UINT32_MAX 0xffffffffu

/* A block, if there is one, as the module returns the two: 8 bytes each. */
struct tried {
  uint64_t ok;
  uint64_t address;
};

struct tried rattle_alloc(uint64_t size, uint64_t align);
struct tried rattle_realloc(void *block, uint64_t kept, uint64_t size, uint64_t align);
void rattle_dealloc(void *block);

/* Of wasi-libc. */
void *malloc(size_t size);
void *realloc(void *block, size_t size);
void free(void *block);

void *page_alloc(size_t size);
void page_free(void *block);

#endif
