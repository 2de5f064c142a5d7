/* What every part of the fuzzer stands on: the public calls, the little that is used of the C library, and chance. */
#ifndef FUZZ_BASE_H
#define FUZZ_BASE_H

/* The kit's compiler comes without the headers of the C library. So its functions are declared by hand here, for every compiler. */
#ifndef PENUMBRICO_NO_HEADERS
#define PENUMBRICO_NO_HEADERS
#endif
#include "penumbrico.h"

typedef __UINT16_TYPE__ uint16_t;
typedef __UINT64_TYPE__ uint64_t;

void *memcpy(void *to, const void *from, size_t bytes);
void *memmove(void *to, const void *from, size_t bytes);
void *memset(void *to, int byte, size_t bytes);
int memcmp(const void *one, const void *other, size_t bytes);
size_t strlen(const char *text);
int strncmp(const char *one, const char *other, size_t bytes);

#define COUNT_OF(array) (sizeof(array) / sizeof(array)[0])

/* Chance: a stream of numbers that its seed alone decides (splitmix64). */
typedef struct { uint64_t state; } chance;

static inline uint64_t draw(chance *c)
{
    uint64_t z = c->state += 0x9e3779b97f4a7c15u;
    z = (z ^ (z >> 30)) * 0xbf58476d1ce4e5b9u;
    z = (z ^ (z >> 27)) * 0x94d049bb133111ebu;
    return z ^ (z >> 31);
}

/* A number from 0 to most - 1; 0 where most is 0. */
static inline uint32_t below(chance *c, uint32_t most)
{
    return (uint32_t)(((draw(c) >> 32) * most) >> 32);
}

static inline uint32_t between(chance *c, uint32_t first, uint32_t last)
{
    return first + below(c, last - first + 1);
}

static inline int one_in(chance *c, uint32_t times) { return below(c, times) == 0; }

static inline uint8_t byte_of(chance *c, const char *set) { return (uint8_t)set[below(c, (uint32_t)strlen(set))]; }

#endif
