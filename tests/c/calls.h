/* The bytes of catalogues, restriction trees and messages, for the C programs. Each function writes from a place on and
   returns the place after what it wrote. No C header is needed. */
#ifndef CALLS_H
#define CALLS_H

#include "plain.h"

enum { KEY = 2, LANGUAGE = 3, DEFAULT = 4, LABEL = 5, NOTE = 6 };
enum { DISCONNECT = 0xC9, FREE_CURSOR = 0xCB, GET_ROWS = 0xCC, SET_BINDINGS = 0xD0 };
enum { CELL = 0x000C, NUMBER = 0x0013 };

u32 word_at(const byte *from, u64 at);
u64 put_word(byte *to, u64 at, u64 v);
u64 put_zeros(byte *to, u64 at, u64 count);
u64 put_number(byte *to, u64 at, u64 v);

/* A catalogue of so many rows as a board has them: key, language, default, a label of `label` to `label` + 15 units, and in
   every third row a note of twice that. Texts are words of one to eight letters, "start" and "restart" among them. */
u64 put_catalogue(byte *to, u64 rows, u64 label);

/* The same with a note of 2,048 units in every row: words of seven letters, among which "start" is none, or spaces alone. */
u64 put_long_notes(byte *to, u64 rows, u64 label, int spaces);

/* The largest catalogue there is: 1,024 rows of 1,024 bytes, the notes of words of seven letters. */
u64 put_largest(byte *to, u64 label);

/* Parts of a tree, which begins at place 0: an and or an or with so many children to follow, a content restriction, a relation. */
u64 put_and(byte *to, u64 at, u32 children);
u64 put_or(byte *to, u64 at, u32 children);
u64 put_phrase(byte *to, u64 at, u32 property, const char *phrase, u32 method);
u64 put_relation(byte *to, u64 at, u32 property, u32 relation, u32 value);

/* A column to bind: its value, status and length stand at these offsets of the row, or are not used. */
enum { UNUSED = 65535 };
struct column {
    u32 property, type, value, status, length;
};

/* Messages: each begins at place 0, and its header has its checksum. */
u64 put_message(byte *to, u32 msg, u64 body);
u64 put_bindings(byte *to, u32 handle, u32 width, const struct column *columns, u32 count);
u64 put_rows(byte *to, u32 handle, u32 rows, u32 width, u32 reserved, u32 buffer, u32 base);
u64 put_free(byte *to, u32 handle);
u64 put_disconnect(byte *to);

#endif
