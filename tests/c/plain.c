/* Plain C versions of the catalogue check and the checksum, straight from their description. */
#include "plain.h"

enum { ROWS_MOST = 1024, UNITS_MOST = 2048, BYTES_MOST = 1048576, HEADER = 16, MESSAGE_MOST = 16384 };

/* A number in groups of seven bits: 0 where it is malformed or above the limit, else 1. */
static int number(const byte *s, u64 count, u64 *at, u64 limit, u64 *value)
{
    u64 v = 0;
    unsigned shift = 0;
    for (u64 i = *at; i < count && shift < 63; i++) {
        u64 b = s[i];
        v |= (b & 127) << shift;
        if (b < 128) {
            if ((b == 0 && shift > 0) || v > limit)
                return 0;
            *value = v;
            *at = i + 1;
            return 1;
        }
        shift += 7;
    }
    return 0;
}

static int text(const byte *s, u64 count, u64 *at)
{
    u64 size;
    if (!number(s, count, at, UNITS_MOST + 1, &size))
        return 0;
    if (size == 0)
        return 1;
    u64 units = size - 1;
    if (count - *at < 2 * units)
        return 0;
    for (u64 i = 0; i < units; i++)
        if (s[*at + 2 * i] == 0 && s[*at + 2 * i + 1] == 0)
            return 0;
    *at += 2 * units;
    return 1;
}

static int row(const byte *s, u64 count, u64 *at)
{
    u64 value;
    for (int i = 0; i < 3; i++)
        if (!number(s, count, at, 4294967295u, &value))
            return 0;
    return text(s, count, at) && text(s, count, at);
}

u32 plain_catalogue_check(const byte *bytes, u64 count, u32 *places)
{
    u64 at = 0, rows;
    if (count > BYTES_MOST || !number(bytes, count, &at, ROWS_MOST, &rows))
        return 3;
    for (u64 i = 0; i < rows; i++) {
        places[i] = (u32)at;
        if (!row(bytes, count, &at))
            return 3;
    }
    return at == count ? 0 : 3;
}

u64 plain_checksum(const byte *m, u64 count)
{
    if (count < HEADER || count > MESSAGE_MOST)
        return 4294967296u;
    u32 sum = 0;
    u64 i = HEADER;
    for (; i + 4 <= count; i += 4)
        sum += (u32)m[i] | (u32)m[i + 1] << 8 | (u32)m[i + 2] << 16 | (u32)m[i + 3] << 24;
    for (unsigned shift = 0; i < count; i++, shift += 8)
        sum += (u32)m[i] << shift;
    u32 msg = (u32)m[0] | (u32)m[1] << 8 | (u32)m[2] << 16 | (u32)m[3] << 24;
    return (u32)((sum ^ 0x59533959u) - msg);
}
