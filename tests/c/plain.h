/* Plain C versions of what libnadrzewie.a does, to compare with. No C header is needed. */
#ifndef PLAIN_H
#define PLAIN_H

typedef unsigned char byte;
typedef unsigned int u32;
typedef unsigned long u64;

/* 3 or 0; the byte place of each row goes into places, which has 1,024 words. */
u32 plain_catalogue_check(const byte *bytes, u64 count, u32 *places);

u64 plain_checksum(const byte *message, u64 count);

#endif
