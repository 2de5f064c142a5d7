/* The kit's compiler comes without headers. The five in this folder declare what the programs of this repository use of the C library, for x86-64. */
#ifndef STDDEF_H
#define STDDEF_H

typedef __SIZE_TYPE__ size_t;
#define NULL ((void *)0)
#define offsetof(type, part) __builtin_offsetof(type, part)

#endif
