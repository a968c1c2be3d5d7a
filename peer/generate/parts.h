/*
 * Bytes with marked fields: what a catalogue, a tree or a message is put
 * together in. The marks name the places of its fields, so that a fault can be
 * aimed at one.
 */
#ifndef GENERATE_PARTS_H
#define GENERATE_PARTS_H

#include "../plain.h"

/* What a marked field is. */
enum role {
    ROLE_TYPE,
    ROLE_COUNT,
    ROLE_SET,
    ROLE_KIND,
    ROLE_PROPERTY,
    ROLE_RELATION,
    ROLE_VALUE_TYPE,
    ROLE_VALUE_DATA,
    ROLE_UNITS,
    ROLE_METHOD,
    ROLE_PADDING,
    ROLE_FLAG,
    ROLES
};

/* A catalogue, a tree or a message. */
struct part {
    size_t length;
    uint32_t mark_count;
    struct {
        enum role role;
        uint32_t place;
    } marks[8192];
    uint8_t bytes[80000];
};

void clear(struct part *part);

/* Marks the place where the next byte will stand. */
void mark(struct part *part, enum role role);

/* At the end of the part, little-endian. */
void add8(struct part *part, uint32_t number);
void add16(struct part *part, uint32_t number);
void add32(struct part *part, uint32_t number);

/* Zero bytes, each of them marked, up to a multiple of the alignment. */
void add_padding(struct part *part, size_t alignment);

/* A property of our set, with the three marks of its fields. */
void add_property(struct part *part, uint32_t property);

/* The word at a place. */
void set32(struct part *part, size_t place, uint32_t number);
uint32_t get32(const struct part *part, size_t place);

/* The place of a chance mark of this role, or -1 where there is none. */
long find_mark(const struct part *part, enum role role);

/* Cuts so many bytes off the end, or all where there are fewer. */
void cut(struct part *part, uint32_t bytes);

/* Cuts the part off inside or just before a marked field. */
void cut_at_mark(struct part *part);

/* Another value of a chance bit: anywhere, or in the property set here. */
void flip_bit(struct part *part);
void damage_set(struct part *part, long place);

#endif
