/* The address sanitizer's calls, which do nothing without it. */
#ifndef SANITIZER_H_
#define SANITIZER_H_

#if defined(__SANITIZE_ADDRESS__)
#define HAS_ADDRESS_SANITIZER
#elif defined(__has_feature)
#if __has_feature(address_sanitizer)
#define HAS_ADDRESS_SANITIZER
#endif
#endif

#ifdef HAS_ADDRESS_SANITIZER
#include <sanitizer/asan_interface.h>
#include <sanitizer/common_interface_defs.h>
#else
/* Bytes that may not be used, or may be again. */
#define ASAN_POISON_MEMORY_REGION(place, size) ((void)(place), (void)(size))
#define ASAN_UNPOISON_MEMORY_REGION(place, size) ((void)(place), (void)(size))
/* Which stack is in use. */
#define __sanitizer_start_switch_fiber(kept, stack, size) ((void)(kept), (void)(stack), (void)(size))
#define __sanitizer_finish_switch_fiber(kept, stack, size) ((void)(kept), (void)(stack), (void)(size))
#endif

#endif
