/* The bytes of catalogues, restriction trees and messages, straight from their description. */
#include "calls.h"

u32 word_at(const byte *from, u64 at)
{
    return (u32)from[at] | (u32)from[at + 1] << 8 | (u32)from[at + 2] << 16 | (u32)from[at + 3] << 24;
}

static u64 put_bytes(byte *to, u64 at, u64 v, u64 count)
{
    for (u64 i = 0; i < count; i++, v >>= 8)
        to[at++] = (byte)v;
    return at;
}

u64 put_word(byte *to, u64 at, u64 v)
{
    return put_bytes(to, at, v, 4);
}

u64 put_zeros(byte *to, u64 at, u64 count)
{
    return put_bytes(to, at, 0, count);
}

static u64 put_padding(byte *to, u64 at, u64 multiple)
{
    return put_zeros(to, at, (multiple - at % multiple) % multiple);
}

/* ---- the catalogue */

u64 put_number(byte *to, u64 at, u64 v)
{
    for (; v >= 128; v >>= 7)
        to[at++] = (byte)(v % 128 + 128);
    to[at++] = (byte)v;
    return at;
}

static const char board[] = "fan start of restart limit a boot before starting order memory ";
static const char sevens[] = "battery monitor standby network storage session restart setting ";

/* a text of these words over and over, from another one at each turn */
static u64 put_text(byte *to, u64 at, u64 units, const char *words, u64 turn)
{
    u64 count = 0;
    while (words[count] != 0)
        count++;
    const char *next = words + turn * 11 % count;
    at = put_number(to, at, units + 1);
    for (u64 i = 0; i < units; i++) {
        to[at++] = (byte)*next++;
        to[at++] = 0;
        next = *next == 0 ? words : next;
    }
    return at;
}

/* key and language of a row */
static u64 put_option(byte *to, u64 at, u64 row)
{
    return put_number(to, put_number(to, at, 1000 + 37 * row), 1031 + row % 23);
}

static u64 put_label(byte *to, u64 at, u64 row, u64 least)
{
    return put_text(to, at, least + row * 7 % 16, board, row);
}

u64 put_catalogue(byte *to, u64 rows, u64 label)
{
    u64 at = put_number(to, 0, rows);
    for (u64 i = 0; i < rows; i++) {
        at = put_number(to, put_option(to, at, i), i * i % 5000);
        at = put_label(to, at, i, label);
        at = i % 3 == 0 ? put_text(to, at, 2 * (label + i * 5 % 16), board, i + 1) : put_number(to, at, 0);
    }
    return at;
}

u64 put_long_notes(byte *to, u64 rows, u64 label, int spaces)
{
    u64 at = put_number(to, 0, rows);
    for (u64 i = 0; i < rows; i++) {
        at = put_number(to, put_option(to, at, i), i * i % 5000);
        at = put_text(to, put_label(to, at, i, label), 2048, spaces ? " " : sevens, i);
    }
    return at;
}

/* Where a row's default stands at an even place it has one group, else two: so its note has two bytes a unit left up to its end. */
u64 put_largest(byte *to, u64 label)
{
    u64 at = put_number(to, 0, 1024);
    for (u64 i = 0; i < 1024; i++) {
        at = put_option(to, at, i);
        at = put_label(to, put_number(to, at, at % 2 == 0 ? i % 128 : 128 + i * i % 5000), i, label);
        at = put_text(to, at, (1024 * (i + 1) - at - 2) / 2, sevens, i);
    }
    return at;
}

/* ---- trees: a node is its kind and a weight, and what its kind asks for */

static u64 put_property(byte *to, u64 at, u32 property)
{
    for (u32 i = 0; i < 16; i++)
        to[at++] = (byte)(16 + i);
    return put_word(to, put_word(to, at, 1), property);
}

static u64 put_node(byte *to, u64 at, u32 kind)
{
    return put_word(to, put_word(to, put_padding(to, at, 4), kind), 1000);
}

u64 put_and(byte *to, u64 at, u32 children)
{
    return put_word(to, put_node(to, at, 1), children);
}

u64 put_or(byte *to, u64 at, u32 children)
{
    return put_word(to, put_node(to, at, 2), children);
}

u64 put_phrase(byte *to, u64 at, u32 property, const char *phrase, u32 method)
{
    u32 units = 0;
    while (phrase[units] != 0)
        units++;
    at = put_word(to, put_property(to, put_node(to, at, 4), property), units);
    for (u32 i = 0; i < units; i++)
        at = put_bytes(to, at, (byte)phrase[i], 2);
    return put_word(to, put_word(to, put_padding(to, at, 4), 1033), method);
}

u64 put_relation(byte *to, u64 at, u32 property, u32 relation, u32 value)
{
    at = put_property(to, put_word(to, put_node(to, at, 5), relation), property);
    return put_word(to, put_word(to, at, NUMBER), value);
}

/* ---- messages */

u64 put_message(byte *to, u32 msg, u64 body)
{
    put_zeros(to, put_word(to, 0, msg), 12);
    put_word(to, 8, plain_checksum(to, 16 + body));
    return 16 + body;
}

static u64 put_spot(byte *to, u64 at, u32 offset)
{
    at = put_bytes(to, at, offset != UNUSED, 1);
    return offset == UNUSED ? at : put_bytes(to, put_padding(to, at, 2), offset, 2);
}

u64 put_bindings(byte *to, u32 handle, u32 width, const struct column *columns, u32 count)
{
    u64 at = put_word(to, put_word(to, 16, handle), width) + 4;
    at = put_word(to, put_word(to, at, 0), count);
    for (u32 i = 0; i < count; i++) {
        const struct column *c = &columns[i];
        at = put_word(to, put_property(to, put_padding(to, at, 4), c->property), c->type);
        at = put_spot(to, at, c->value);
        if (c->value != UNUSED)
            at = put_bytes(to, at, c->type == CELL ? 16 : 4, 2);
        at = put_spot(to, put_spot(to, at, c->status), c->length);
    }
    put_word(to, 24, at - 32);
    return put_message(to, SET_BINDINGS, at - 16);
}

u64 put_rows(byte *to, u32 handle, u32 rows, u32 width, u32 reserved, u32 buffer, u32 base)
{
    const u32 body[] = {handle, rows, width, 12, reserved, buffer, base, 0, 1, 0, 0};
    for (u32 i = 0; i < 11; i++)
        put_word(to, 16 + 4 * i, body[i]);
    return put_message(to, GET_ROWS, sizeof body);
}

u64 put_free(byte *to, u32 handle)
{
    put_word(to, 16, handle);
    return put_message(to, FREE_CURSOR, 4);
}

u64 put_disconnect(byte *to)
{
    return put_message(to, DISCONNECT, 0);
}
