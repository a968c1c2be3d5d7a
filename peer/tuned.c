/*
 * The second server, tuned for speed: server.c, with other code where the
 * calls spend their instructions. What each part does is said there; here is
 * how it is made fast. All of it is plain C, written so that the compiler
 * joins bytes and units to wide ones. It has the shapes that README.md names,
 * and no others: they are those of the first server, to which it is compared.
 */
#define PEER_TUNED
#include "server.h"

struct catalogue;
struct node;
struct page;
struct row;
struct text;
struct tree;

static inline bool holds_zero_unit(const uint8_t *at, size_t units);
static inline const uint8_t *checked_count(const uint8_t *at,
                                           const uint8_t *end,
                                           uint32_t *count_plus_one);
static inline const uint8_t *checked_numbers(const uint8_t *at,
                                             const uint8_t *end);
static inline void read_row(const struct catalogue *catalogue,
                            struct peer_row which, struct row *row);
static bool all_zero(const uint32_t *words, size_t count);
static bool rise_strictly(const uint32_t *numbers, uint32_t count);
static inline bool satisfies(const struct tree *tree, uint32_t number,
                             const struct row *row);
static inline void find_blocks(struct page *page);
static inline uint32_t row_block_bytes(const struct page *page,
                                       const struct row *row);
static inline void copy_units(uint8_t *to, const uint8_t *from, size_t bytes);

/* The search stays a function of its own: with it inside, a leaf would be too
   large to be judged without a call. */
__attribute__((noinline)) static bool
phrase_occurs(const struct text *text, const struct node *content);

#include "server.c"

/* ------------------------------------------------------------------------ */
/* The option catalogue                                                     */
/* ------------------------------------------------------------------------ */

/* The bytes of eight units. */
enum { EIGHT = 16 };

/* Nonzero where one of eight units is zero. Their byte order doesn't matter. */
static inline unsigned zero_in_eight(const uint8_t *at)
{
    uint16_t units[8];
    memcpy(units, at, sizeof units);
    unsigned zero = 0;
    for (unsigned unit = 0; unit < 8; unit++)
        zero |= units[unit] == 0;
    return zero;
}

/* The same of eights at two places, which may overlap. */
static inline unsigned zero_in_two(const uint8_t *one, const uint8_t *other)
{
    return zero_in_eight(one) | zero_in_eight(other);
}

/* Two eights, four, or four at a time, without a rest: the last ones end where
   the units end, and overlap those before them. */
static inline bool holds_zero_unit(const uint8_t *at, size_t units)
{
    const uint8_t *end = at + 2 * units;
    if (units < 8) {
        for (; at != end; at += 2)
            if (get16(at) == 0)
                return true;
        return false;
    }
    if (units <= 16)
        return zero_in_two(at, end - EIGHT) != 0;
    if (units > 32) {
        for (; at < end - 4 * EIGHT; at += 4 * EIGHT)
            if (zero_in_two(at, at + EIGHT) |
                zero_in_two(at + 2 * EIGHT, at + 3 * EIGHT))
                return true;
        at = end - 4 * EIGHT;
    }
    return (zero_in_two(at, at + EIGHT) |
            zero_in_two(end - 2 * EIGHT, end - EIGHT)) != 0;
}

enum { FEW_GROUPS = 3 };

/* The byte after a number of few groups, or NULL where it is malformed or has
   more. The bytes of that many groups are there. */
static inline const uint8_t *past_few_groups(const uint8_t *at)
{
    if (at[0] < MORE_GROUPS)
        return at + 1;
    if (at[1] != 0 && at[1] < MORE_GROUPS)
        return at + 2;
    if (at[1] != 0 && at[2] != 0 && at[2] < MORE_GROUPS)
        return at + 3;
    return NULL;
}

/* Each number is tested for the end of the catalogue only where it is near, or
   a number has many groups. */
static inline const uint8_t *checked_numbers(const uint8_t *at,
                                             const uint8_t *end)
{
    if (end - at >= 3 * FEW_GROUPS) {
        const uint8_t *past = past_few_groups(at);
        if (past != NULL)
            past = past_few_groups(past);
        if (past != NULL)
            past = past_few_groups(past);
        if (past != NULL)
            return past;
    }
    uint32_t ignored;
    for (unsigned number = 0; at != NULL && number < 3; number++)
        at = checked_number(at, end, &ignored);
    return at;
}

/* A count that is served has two groups at most. */
static inline const uint8_t *checked_count(const uint8_t *at,
                                           const uint8_t *end,
                                           uint32_t *count_plus_one)
{
    if (at == end)
        return NULL;
    uint32_t count = *at++;
    if (count >= MORE_GROUPS) {
        if (at == end || *at == 0 || *at >= MORE_GROUPS)
            return NULL;
        count += ((uint32_t)*at++ - 1) << GROUP_BITS;
    }
    *count_plus_one = count;
    return at;
}

/* A number that stands: of one group, of two, or of more. Each further group
   takes back the top bit of the one before it. */
static inline uint32_t next_number(const uint8_t **at)
{
    const uint8_t *next = *at;
    uint32_t number = *next++;
    if (number >= MORE_GROUPS) {
        number += ((uint32_t)*next++ - 1) << GROUP_BITS;
        for (unsigned shift = 2 * GROUP_BITS; next[-1] >= MORE_GROUPS;
             shift += GROUP_BITS)
            number += ((uint32_t)*next++ - 1) << shift;
    }
    *at = next;
    return number;
}

static inline void read_row(const struct catalogue *catalogue,
                            struct peer_row which, struct row *row)
{
    const uint8_t *at =
        catalogue->bytes + catalogue->row_places[which.number];
    row->numbers[0] = next_number(&at);
    row->numbers[1] = next_number(&at);
    row->numbers[2] = next_number(&at);
    for (struct text *text = row->texts; text != row->texts + 2; text++) {
        uint32_t count_plus_one = next_number(&at);
        text->present = count_plus_one != 0;
        text->units = count_plus_one - text->present;
        text->bytes = at;
        at += 2 * (size_t)text->units;
    }
}

/* ------------------------------------------------------------------------ */
/* The session table                                                        */
/* ------------------------------------------------------------------------ */

/* Without a way out of the loop, the compiler takes many words at a time. */
static bool all_zero(const uint32_t *words, size_t count)
{
    uint32_t joined = 0;
    for (size_t word = 0; word < count; word++)
        joined |= words[word];
    return joined == 0;
}

static bool rise_strictly(const uint32_t *numbers, uint32_t count)
{
    bool rise = true;
    for (uint32_t next = 1; next < count; next++)
        rise &= numbers[next - 1] < numbers[next];
    return rise;
}

/* ------------------------------------------------------------------------ */
/* Restriction trees                                                        */
/* ------------------------------------------------------------------------ */

/* A relation is what it lets through: below 1, equal 2, above 4. */
static inline bool leaf_holds(const struct node *node, const struct row *row)
{
    static const uint8_t lets[] = {[LESS] = 1,    [LESS_OR_EQUAL] = 3,
                                   [GREATER] = 4, [GREATER_OR_EQUAL] = 6,
                                   [EQUAL] = 2,   [NOT_EQUAL] = 5};
    if (node->kind == CONTENT)
        return phrase_occurs(text_of(row, node->property), node);
    uint32_t value = number_of(row, node->property);
    unsigned place = 1 + (value > node->value) - (value < node->value);
    return lets[node->relation] >> place & 1;
}

/* The node below a row of nots, each of which turns what is looked for. */
static inline const struct node *below_nots(const struct node *node,
                                            bool *looked_for)
{
    for (; node->kind == NOT; node++)
        *looked_for = !*looked_for;
    return node;
}

/* The leaves of a list are judged without a call of this. */
static bool list_holds(const struct tree *tree, const struct node *list,
                       const struct row *row)
{
    const struct node *end = tree->nodes + list->after;
    for (const struct node *child = list + 1; child != end;
         child = tree->nodes + child->after) {
        bool looked_for = list->kind == OR;
        const struct node *node = below_nots(child, &looked_for);
        bool holds = node->kind >= CONTENT ? leaf_holds(node, row)
                                           : list_holds(tree, node, row);
        if (holds == looked_for)
            return list->kind == OR;
    }
    return list->kind != OR;
}

static inline bool satisfies(const struct tree *tree, uint32_t number,
                             const struct row *row)
{
    bool looked_for = true;
    const struct node *node = below_nots(&tree->nodes[number], &looked_for);
    return looked_for == (node->kind >= CONTENT ? leaf_holds(node, row)
                                                : list_holds(tree, node, row));
}

/* ------------------------------------------------------------------------ */
/* A page of rows                                                           */
/* ------------------------------------------------------------------------ */

/* Whether the label and the note have a block is found once a page. */
static inline void find_blocks(struct page *page)
{
    for (const uint32_t *column = page->columns; column != page->columns_end;
         column += COLUMN_WORDS)
        if (is_text(column[COLUMN_PROPERTY]))
            page->has_block[column[COLUMN_PROPERTY] - PROPERTY_LABEL] =
                column[COLUMN_VALUE_USED];
}

static inline uint32_t row_block_bytes(const struct page *page,
                                       const struct row *row)
{
    uint32_t bytes = 0;
    for (unsigned text = 0; text < 2; text++)
        if (page->has_block[text] & row->texts[text].present)
            bytes += block_bytes(&row->texts[text]);
    return bytes;
}

/* Sixteen bytes at a time, without a rest: the last sixteen end where the bytes
   end, and overlap those before them. */
static inline void copy_units(uint8_t *to, const uint8_t *from, size_t bytes)
{
    if (bytes < 16) {
        memcpy(to, from, bytes);
        return;
    }
    uint8_t *last = to + bytes - 16;
    const uint8_t *last_from = from + bytes - 16;
    for (; to < last; to += 16, from += 16)
        memcpy(to, from, 16);
    memcpy(last, last_from, 16);
}
