/*
 * The few types and library functions that the peer's sources use.
 *
 * No system header is included anywhere, so that the sources also compile
 * where there are none. The types come from names that the compiler itself
 * defines, and each prototype below is that of the C library.
 */
#ifndef PEER_PLAIN_H
#define PEER_PLAIN_H

typedef __UINT8_TYPE__ uint8_t;
typedef __UINT16_TYPE__ uint16_t;
typedef __UINT32_TYPE__ uint32_t;
typedef __UINT64_TYPE__ uint64_t;
typedef __SIZE_TYPE__ size_t;
typedef _Bool bool;

enum { false = 0, true = 1 };

#define NULL ((void *)0)

_Static_assert(sizeof(uint8_t) == 1, "a byte is 8 bits");
_Static_assert(sizeof(uint32_t) == 4, "a word is 32 bits");
_Static_assert(sizeof(size_t) >= sizeof(uint32_t), "a size holds a word");

/* Bytes in memory. */
void *memcpy(void *restrict to, const void *restrict from, size_t length);
void *memmove(void *to, const void *from, size_t length);
void *memset(void *place, int value, size_t length);
int memcmp(const void *one, const void *other, size_t length);
size_t strlen(const char *text);

/* Memory that grows. */
void *realloc(void *old, size_t length);
void free(void *old);

/* Files by descriptor: 0 is the input, 1 the output, 2 the errors. */
int open(const char *path, int flags, ...);
long read(int descriptor, void *into, size_t length);
long write(int descriptor, const void *from, size_t length);
int close(int descriptor);

_Noreturn void exit(int status);

#endif
