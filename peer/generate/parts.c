/*
 * Bytes with marked fields. Nothing here knows what the bytes mean, but for the
 * property, which trees and bindings have in the same form.
 */
#include "parts.h"
#include "chance.h"

void clear(struct part *part)
{
    part->length = 0;
    part->mark_count = 0;
}

void mark(struct part *part, enum role role)
{
    if (part->mark_count == sizeof part->marks / sizeof *part->marks)
        return;
    part->marks[part->mark_count].role = role;
    part->marks[part->mark_count].place = (uint32_t)part->length;
    part->mark_count++;
}

void add8(struct part *part, uint32_t number)
{
    part->bytes[part->length++] = (uint8_t)number;
}

void add16(struct part *part, uint32_t number)
{
    add8(part, number & 0xFF);
    add8(part, number >> 8 & 0xFF);
}

void add32(struct part *part, uint32_t number)
{
    add16(part, number & 0xFFFF);
    add16(part, number >> 16);
}

void set32(struct part *part, size_t place, uint32_t number)
{
    for (unsigned byte = 0; byte < 4; byte++)
        part->bytes[place + byte] = (uint8_t)(number >> 8 * byte);
}

uint32_t get32(const struct part *part, size_t place)
{
    uint32_t number = 0;
    for (unsigned byte = 0; byte < 4; byte++)
        number |= (uint32_t)part->bytes[place + byte] << 8 * byte;
    return number;
}

void add_padding(struct part *part, size_t alignment)
{
    while (part->length % alignment != 0) {
        mark(part, ROLE_PADDING);
        add8(part, 0);
    }
}

void add_property(struct part *part, uint32_t property)
{
    mark(part, ROLE_SET);
    for (uint32_t byte = 0x10; byte <= 0x1F; byte++)
        add8(part, byte);
    mark(part, ROLE_KIND);
    add32(part, 1);
    mark(part, ROLE_PROPERTY);
    add32(part, property);
}

long find_mark(const struct part *part, enum role role)
{
    long found = -1;
    uint32_t seen = 0;
    for (uint32_t number = 0; number < part->mark_count; number++)
        if (part->marks[number].role == role && below(++seen) == 0)
            found = (long)part->marks[number].place;
    return found;
}

void cut(struct part *part, uint32_t bytes)
{
    part->length -= least_of(bytes, (uint32_t)part->length);
}

void cut_at_mark(struct part *part)
{
    if (part->mark_count == 0)
        return;
    uint32_t place = part->marks[below(part->mark_count)].place + below(4);
    if (place < part->length)
        part->length = place;
}

void flip_bit(struct part *part)
{
    if (part->length == 0)
        return;
    uint32_t place = below((uint32_t)part->length);
    part->bytes[place] ^= (uint8_t)(1 << below(8));
}

void damage_set(struct part *part, long place)
{
    place += below(16);
    part->bytes[place] ^= (uint8_t)(1 << below(8));
}
