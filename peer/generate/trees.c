/*
 * Restriction trees, node by node. Every field that can be wrong is marked as
 * it is written: a fault takes a good tree and changes one of them.
 */
#include "trees.h"
#include "catalogues.h"
#include "chance.h"

/* ------------------------------------------------------------------------ */
/* Nodes                                                                    */
/* ------------------------------------------------------------------------ */

struct part tree;

void add_node(uint32_t kind)
{
    mark(&tree, ROLE_TYPE);
    add32(&tree, kind);
    add32(&tree, percent(70) ? 1000 : any32());
}

static void add_and_or(uint32_t kind, uint32_t children)
{
    add_node(kind);
    mark(&tree, ROLE_COUNT);
    add32(&tree, children);
}

void add_relation(uint32_t relation, uint32_t property, uint32_t value)
{
    add_node(PROPERTY);
    mark(&tree, ROLE_RELATION);
    add32(&tree, relation);
    add_property(&tree, property);
    mark(&tree, ROLE_VALUE_TYPE);
    add16(&tree, 0x0013);
    mark(&tree, ROLE_VALUE_DATA);
    add16(&tree, 0);
    add32(&tree, value);
}

static void add_phrase(uint32_t property, const uint16_t *units, uint32_t count,
                       uint32_t method)
{
    add_node(CONTENT);
    add_property(&tree, property);
    add_padding(&tree, 4);
    mark(&tree, ROLE_UNITS);
    add32(&tree, count);
    for (uint32_t unit = 0; unit < count; unit++)
        add16(&tree, units[unit]);
    add_padding(&tree, 4);
    add32(&tree, percent(70) ? 0x0409 : any32());
    mark(&tree, ROLE_METHOD);
    add32(&tree, method);
}

/* A relation to a value that some row has, or one beside it. */
static void add_any_relation(void)
{
    uint32_t property = between(2, 4), value = any_number();
    if (contents.row_count > 0 && percent(80)) {
        uint32_t row = below(contents.row_count);
        value = contents.rows[row].numbers[property - 2];
        value += PICK(0, 0, 0, 1, ~0u);
    }
    add_relation(below(6), property, value);
}

/* A part of a text that some row has: mostly from a word's start, to a word's
   end or not, and at times with a unit changed. */
static uint32_t phrase_from_text(const struct text *text, uint16_t *units)
{
    const uint16_t *from = contents.pool + text->first;
    uint32_t start = below(text->units);
    if (percent(85))
        while (start > 0 && from[start - 1] != ' ')
            start--;
    uint32_t length = between(1, least_of(text->units - start, 64));
    if (percent(60))
        while (start + length < text->units && length < 64 &&
               from[start + length] != ' ')
            length++;
    memcpy(units, from + start, length * sizeof *units);
    if (percent(10)) {
        uint32_t changed = below(length);
        units[changed] = percent(20) ? 0 : any_unit();
    }
    return length;
}

static void add_any_phrase(void)
{
    uint16_t units[64];
    uint32_t count = 0;
    uint32_t property = between(5, 6);
    if (contents.row_count > 0 && percent(70)) {
        uint32_t row = below(contents.row_count);
        const struct text *text =
            &contents.rows[row].texts[percent(90) ? property - 5 : below(2)];
        if (text->units > 0)
            count = phrase_from_text(text, units);
    }
    if (count == 0)
        for (const char *c = any_word(); *c != '\0'; c++)
            units[count++] = (uint16_t)*c;
    add_phrase(property, units, count, below(2));
}

/* A phrase of exactly so many units, also more than are served. */
static void add_long_phrase(uint32_t count)
{
    uint16_t units[80];
    uint32_t property = between(5, 6);
    for (uint32_t unit = 0; unit < count; unit++)
        units[unit] = percent(20) ? ' ' : 'a';
    add_phrase(property, units, count, below(2));
}

void add_leaf(void)
{
    if (percent(50))
        add_any_relation();
    else
        add_any_phrase();
}

/* A node with so many levels and nodes at most, itself included. Answers the
   count of its nodes. */
static uint32_t add_any_node(uint32_t levels, uint32_t nodes)
{
    if (levels == 1 || nodes < 2 || percent(25)) {
        add_leaf();
        return 1;
    }
    if (percent(30)) {
        add_node(NOT);
        return 1 + add_any_node(levels - 1, nodes - 1);
    }
    uint32_t children = between(1, least_of(nodes - 1, 4)), used = 1;
    add_and_or(between(AND, OR), children);
    for (uint32_t child = 0; child < children; child++)
        used += add_any_node(levels - 1,
                             (nodes - used) - (children - 1 - child));
    return used;
}

/* ------------------------------------------------------------------------ */
/* Trees that are served                                                    */
/* ------------------------------------------------------------------------ */

void make_broad_tree(void)
{
    clear(&tree);
    switch (below(5)) {
    case 0:
        add_relation(1, between(2, 4), 0xFFFFFFFF);
        break;
    case 1:
        add_node(NOT);
        add_any_relation();
        break;
    case 2:
        add_and_or(OR, 2);
        add_any_phrase();
        add_relation(5, 2, any_number());
        break;
    case 3:
        add_and_or(OR, 2);
        add_any_phrase();
        add_node(NOT);
        add_any_phrase();
        break;
    default:
        add_relation(3, between(2, 4), 0);
    }
}

void make_any_tree(void)
{
    clear(&tree);
    uint32_t levels = between(1, 8);
    (void)add_any_node(levels, between(2, 14));
}

void make_empty_selection_tree(void)
{
    clear(&tree);
    add_relation(0, between(2, 4), 0);
}

/* Exactly so many levels, one node on each. */
static void make_levels(uint32_t levels)
{
    clear(&tree);
    for (uint32_t level = 1; level < levels; level++)
        if (percent(50))
            add_node(NOT);
        else
            add_and_or(between(AND, OR), 1);
    add_leaf();
}

/* Exactly so many nodes. */
static void make_nodes(uint32_t nodes)
{
    clear(&tree);
    if (percent(50)) {
        add_and_or(between(AND, OR), nodes - 1);
        for (uint32_t node = 1; node < nodes; node++)
            add_any_relation();
        return;
    }
    uint32_t first = between(2, nodes - 4), second = nodes - 1 - first;
    add_and_or(between(AND, OR), 2);
    add_and_or(between(AND, OR), first - 1);
    for (uint32_t node = 1; node < first; node++)
        add_any_relation();
    add_and_or(between(AND, OR), second - 1);
    for (uint32_t node = 1; node < second; node++)
        add_any_relation();
}

/* 12 bytes, 23 phrases of 64 units (172 bytes each), and a last of 44 bytes
   and its units: 42 of them make 4,096 bytes, 43 or 44 make 4,100. */
void make_tree_bytes(uint32_t last_units)
{
    clear(&tree);
    add_and_or(between(AND, OR), 24);
    for (uint32_t child = 0; child < 23; child++)
        add_long_phrase(64);
    add_long_phrase(last_units);
}

void make_limit_tree(void)
{
    switch (below(5)) {
    case 0:
        make_levels(8);
        break;
    case 1:
        make_nodes(64);
        break;
    case 2:
        make_tree_bytes(42);
        break;
    case 3:
        clear(&tree);
        add_long_phrase(PICK(1, 63, 64));
        break;
    default:
        clear(&tree);
        (void)add_any_node(8, 40);
        if (tree.length > 4096)
            make_levels(8);
    }
}

/* ------------------------------------------------------------------------ */
/* Trees with a fault                                                       */
/* ------------------------------------------------------------------------ */

/* One field of the tree gets a value that is not served. False where the tree
   has no such field. */
static bool damage_tree_field(enum role role)
{
    long found = find_mark(&tree, role);
    if (found < 0)
        return false;
    size_t place = (size_t)found;
    uint32_t now = role == ROLE_PADDING || role == ROLE_SET ||
                           role == ROLE_VALUE_TYPE || role == ROLE_VALUE_DATA
                       ? 0
                       : get32(&tree, place);
    switch (role) {
    case ROLE_TYPE:
        set32(&tree, place,
              PICK(0, 1, 2, 3, 4, 5, 6, 7, 8, 9, 0xFFFFFFFF, 0xFFFFFFFA,
                   0x00010005, 0x01000004));
        break;
    case ROLE_COUNT:
        set32(&tree, place,
              PICK(0, now + 1, now - 1, 65, 0xFFFFFFFF, 0x80000001,
                   now + 0x00010000));
        break;
    case ROLE_SET:
        damage_set(&tree, found);
        break;
    case ROLE_KIND:
        set32(&tree, place, PICK(0, 2, 0x00010001, 0xFFFFFFFF));
        break;
    case ROLE_PROPERTY:
        set32(&tree, place,
              PICK(0, 1, 7, 8, now >= 5 ? 2 : 5, now >= 5 ? 4 : 6,
                   now + 0x00010000, 0xFFFFFFFF));
        break;
    case ROLE_RELATION:
        set32(&tree, place,
              nearest_or(6, PICK(7, 8, 0x100, 0x200, 0x104, 0x00010000,
                                 0xFFFFFFFF)));
        break;
    case ROLE_VALUE_TYPE:
        tree.bytes[place] = (uint8_t)PICK(0x13, 0x12, 0x15, 0x03, 0x00);
        tree.bytes[place + 1] = tree.bytes[place] == 0x13 ? 0x10 : 0x00;
        break;
    case ROLE_VALUE_DATA:
        place += below(2);
        tree.bytes[place] = (uint8_t)between(1, 255);
        break;
    case ROLE_UNITS:
        set32(&tree, place,
              PICK(0, 65, now + 1, now + 2, now - 1, 0x80000000 + now,
                   0xFFFFFFFF, 0x00010000 + now));
        break;
    case ROLE_METHOD:
        set32(&tree, place,
              nearest_or(2, PICK(3, 0x00010000, 0x80000000, 0xFFFFFFFF)));
        break;
    default:
        tree.bytes[place] = (uint8_t)between(1, 255);
    }
    return true;
}

void make_damaged_tree(void)
{
    uint16_t units[1] = {'a'};
    make_any_tree();
    switch (below(28)) {
    case 0:
        cut(&tree, between(1, 8));
        break;
    case 1:
        cut_at_mark(&tree);
        break;
    case 2:
        for (uint32_t more = between(1, 8); more > 0; more--)
            add8(&tree, percent(70) ? 0 : any32());
        break;
    case 3:
        make_levels(nearest_or(9, between(10, 11)));
        break;
    case 4:
        make_nodes(nearest_or(65, between(66, 67)));
        break;
    case 5:
        make_tree_bytes(between(43, 46));
        break;
    case 6:
        clear(&tree);
        add_long_phrase(nearest_or(65, between(66, 70)));
        break;
    case 7:
        clear(&tree);
        add_phrase(5, units, 0, 0);
        break;
    case 8:
        clear(&tree);
        add_and_or(between(AND, OR), 0);
        break;
    case 9:
        flip_bit(&tree);
        break;
    case 10:
        make_tree_bytes(42);
        add8(&tree, 0);
        break;
    case 11:
        clear(&tree);
        add_phrase(5, units, 1, below(2));
        (void)damage_tree_field(ROLE_PADDING);
        break;
    default:
        while (!damage_tree_field((enum role)below(ROLES)))
            ;
    }
}
