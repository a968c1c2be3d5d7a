/*
 * The second server of Nadrzewie: connecting, opening, and the four messages.
 *
 * The parts, in order: the refusals, numbers in bytes, reading forward,
 * properties, the option catalogue, whether bindings fit, the session table,
 * restriction trees, header and checksum, a page of rows, setting bindings,
 * freeing a cursor and disconnecting, and last the public calls. Sentences in
 * quotation marks are those of the paper of exact rules ("01" for short).
 */
#include "server.h"

/* ------------------------------------------------------------------------ */
/* The refusals                                                             */
/* ------------------------------------------------------------------------ */

/* "Refusal numbers, in order of test": "The first that applies is given, and
   no other." */
enum {
    ACCEPTED = 0,
    SEAT_ABOVE_7 = 1,
    TABLE_MALFORMED = 2,
    CATALOGUE_MALFORMED = 3,
    REPLY_BUFFER_SMALL = 4,
    MESSAGE_SIZE = 5,
    MESSAGE_NOT_SERVED = 6,
    CONNECTION = 7,
    CHECKSUM_WRONG = 8,
    BODY_MALFORMED = 9,
    HANDLE_NOT_OPEN = 10,
    NO_BINDINGS = 11,
    BINDINGS_UNFIT = 12,
    SEEK_NOT_SERVED = 13,
    BOTH_HANDLES_OPEN = 14,
    FIRST_ROW_TOO_LARGE = 15,
    RESTRICTION_MALFORMED = 16
};

/* The status of each refusal. "Numbers 1 to 5 write nothing", so theirs and
   that of no refusal are never sent. */
static const uint32_t refusal_statuses[] = {
    [MESSAGE_NOT_SERVED] = 0xC000000D,
    [CONNECTION] = 0xC000000D,
    [CHECKSUM_WRONG] = 0xC000000D,
    [BODY_MALFORMED] = 0xC000000D,
    [HANDLE_NOT_OPEN] = 0x80004005,
    [NO_BINDINGS] = 0x8000FFFF,
    [BINDINGS_UNFIT] = 0x80040E08,
    [SEEK_NOT_SERVED] = 0xC00000BB,
    [BOTH_HANDLES_OPEN] = 0xC000009A,
    [FIRST_ROW_TOO_LARGE] = 0xC0000023,
    [RESTRICTION_MALFORMED] = 0xC000000D,
};

/* ------------------------------------------------------------------------ */
/* Numbers in bytes, low byte first                                         */
/* ------------------------------------------------------------------------ */

static inline uint32_t get16(const uint8_t *at)
{
    return (uint32_t)at[0] | (uint32_t)at[1] << 8;
}

static inline uint32_t get32(const uint8_t *at)
{
    return get16(at) | get16(at + 2) << 16;
}

static inline void put16(uint8_t *at, uint32_t number)
{
    at[0] = (uint8_t)number;
    at[1] = (uint8_t)(number >> 8);
}

static inline void put32(uint8_t *at, uint32_t number)
{
    put16(at, number);
    put16(at + 2, number >> 16);
}

/* ------------------------------------------------------------------------ */
/* Reading forward in a message or a tree                                   */
/* ------------------------------------------------------------------------ */

/* Places count from the first byte of the message, or of the tree: "Position 0
   is the tree's first byte." */
struct reader {
    const uint8_t *bytes;
    size_t length;
    size_t place;
};

/* The next bytes, so many of them, or NULL where the part ends early. */
static const uint8_t *take(struct reader *reader, size_t count)
{
    if (reader->length - reader->place < count)
        return NULL;
    const uint8_t *taken = reader->bytes + reader->place;
    reader->place += count;
    return taken;
}

static bool take8(struct reader *reader, uint32_t *number)
{
    const uint8_t *at = take(reader, 1);
    if (at == NULL)
        return false;
    *number = at[0];
    return true;
}

static bool take16(struct reader *reader, uint32_t *number)
{
    const uint8_t *at = take(reader, 2);
    if (at == NULL)
        return false;
    *number = get16(at);
    return true;
}

static bool take32(struct reader *reader, uint32_t *number)
{
    const uint8_t *at = take(reader, 4);
    if (at == NULL)
        return false;
    *number = get32(at);
    return true;
}

/* Bindings: "padding not zero" is malformed; trees: "Padding is zero". Reads
   the padding up to the next place that is a multiple of the alignment. */
static bool take_padding(struct reader *reader, size_t alignment)
{
    while (reader->place % alignment != 0) {
        uint32_t padding;
        if (!take8(reader, &padding) || padding != 0)
            return false;
    }
    return true;
}

static bool all_read(const struct reader *reader)
{
    return reader->place == reader->length;
}

/* ------------------------------------------------------------------------ */
/* Properties                                                               */
/* ------------------------------------------------------------------------ */

/* "property numbers 2 key, 3 language, 4 default, 5 label, 6 note". */
enum {
    PROPERTY_UNKNOWN = 0,
    PROPERTY_KEY = 2,
    PROPERTY_LANGUAGE = 3,
    PROPERTY_DEFAULT = 4,
    PROPERTY_LABEL = 5,
    PROPERTY_NOTE = 6
};

/* "Only numbered properties (ulKind 1) are served". */
enum { NUMBERED_PROPERTY = 1 };

/* "set identifier = the sixteen bytes 0x10, 0x11 and so on to 0x1F". */
static const uint8_t set_identifier[16] = {
    0x10, 0x11, 0x12, 0x13, 0x14, 0x15, 0x16, 0x17,
    0x18, 0x19, 0x1A, 0x1B, 0x1C, 0x1D, 0x1E, 0x1F,
};

static inline bool is_number(uint32_t property)
{
    return property >= PROPERTY_KEY && property <= PROPERTY_DEFAULT;
}

static inline bool is_text(uint32_t property)
{
    return property == PROPERTY_LABEL || property == PROPERTY_NOTE;
}

/* CFullPropSpec: set identifier, ulKind, PrSpec. False where it ends early or
   is of another kind: "another ulKind is refusal 9 in a body and 16 in a
   tree". A property of another set is unknown. */
static bool take_property(struct reader *reader, uint32_t *property)
{
    const uint8_t *set = take(reader, sizeof set_identifier);
    uint32_t kind;
    if (set == NULL || !take32(reader, &kind) || kind != NUMBERED_PROPERTY ||
        !take32(reader, property))
        return false;
    if (memcmp(set, set_identifier, sizeof set_identifier) != 0)
        *property = PROPERTY_UNKNOWN;
    return true;
}

/* ------------------------------------------------------------------------ */
/* The option catalogue                                                     */
/* ------------------------------------------------------------------------ */

/* "At most 1,048,576 bytes." A text has "at most 2,048 units". */
enum { MOST_CATALOGUE_BYTES = 1048576, MOST_TEXT_UNITS = 2048 };

/* "groups of seven bits, ... at most 4,294,967,295": five groups at most. */
enum { GROUP_BITS = 7, GROUP_MASK = 0x7F, MORE_GROUPS = 0x80, MOST_GROUPS = 5 };

/* A catalogue that was found well formed, with the place of each row's first
   byte, so that any row is read by its number without a walk. */
struct catalogue {
    const uint8_t *bytes;
    uint32_t row_count;
    uint32_t row_places[PEER_ROWS];
};

/* A label or a note: absent, or present with zero or more units. */
struct text {
    bool present;
    uint32_t units;
    const uint8_t *bytes;
};

/* One row, as its properties: key, language, default; label, note. */
struct row {
    uint32_t numbers[3];
    struct text texts[2];
};

/* Reads one number that may be malformed: "groups of seven bits, least first,
   top bit set on all groups but the last, shortest form only, at most
   4,294,967,295". Answers the byte after it, or NULL. */
static const uint8_t *checked_number(const uint8_t *at, const uint8_t *end,
                                     uint32_t *number)
{
    if (at != end && *at < MORE_GROUPS) { /* one group, as most are */
        *number = *at;
        return at + 1;
    }
    uint64_t value = 0;
    for (unsigned group = 0; group < MOST_GROUPS; group++) {
        if (at == end)
            return NULL;
        uint8_t bits = *at++;
        value |= (uint64_t)(bits & GROUP_MASK) << group * GROUP_BITS;
        if (bits & MORE_GROUPS)
            continue;
        if ((bits == 0 && group > 0) || value > 0xFFFFFFFF)
            return NULL;
        *number = (uint32_t)value;
        return at;
    }
    return NULL;
}

#ifndef PEER_TUNED /* tuned.c has its own, here and below */
/* Nonzero where one of four units is zero. One is taken from each: where none
   is zero, nothing is borrowed and no top bit that was clear becomes set; the
   first zero unit gets its top bit set. Whether a unit is zero doesn't depend
   on its byte order. */
static inline uint64_t zero_in_four(const uint8_t *bytes)
{
    const uint64_t ones = 0x0001000100010001, tops = 0x8000800080008000;
    uint64_t four;
    memcpy(&four, bytes, sizeof four);
    return (four - ones) & ~four & tops;
}

/* Tests sixteen units at a time, then four, then one. */
static bool holds_zero_unit(const uint8_t *at, size_t units)
{
    for (; units >= 16; units -= 16, at += 32)
        if ((zero_in_four(at) | zero_in_four(at + 8) | zero_in_four(at + 16) |
             zero_in_four(at + 24)) != 0)
            return true;
    for (; units >= 4; units -= 4, at += 8)
        if (zero_in_four(at) != 0)
            return true;
    for (; units > 0; units--, at += 2)
        if (get16(at) == 0)
            return true;
    return false;
}

/* A text's count of units plus one. */
static inline const uint8_t *checked_count(const uint8_t *at,
                                           const uint8_t *end,
                                           uint32_t *count_plus_one)
{
    return checked_number(at, end, count_plus_one);
}

/* Key, language and default. */
static inline const uint8_t *checked_numbers(const uint8_t *at,
                                             const uint8_t *end)
{
    for (unsigned number = 0; at != NULL && number < 3; number++) {
        uint32_t ignored;
        at = checked_number(at, end, &ignored);
    }
    return at;
}
#endif

/* "A label or note is 0 for absent, else its count of UTF-16 units plus one
   (at most 2,048 units), then the units, two bytes each, low byte first, none
   of them zero." Answers the byte after it, or NULL. */
static const uint8_t *checked_text(const uint8_t *at, const uint8_t *end)
{
    uint32_t count_plus_one;
    at = checked_count(at, end, &count_plus_one);
    if (at == NULL || count_plus_one == 0)
        return at;
    size_t units = count_plus_one - 1;
    if (units > MOST_TEXT_UNITS || (size_t)(end - at) < 2 * units ||
        holds_zero_unit(at, units))
        return NULL;
    return at + 2 * units;
}

/* "for each row: key, language, default, label, note". */
static const uint8_t *checked_row(const uint8_t *at, const uint8_t *end)
{
    at = checked_numbers(at, end);
    for (unsigned text = 0; at != NULL && text < 2; text++)
        at = checked_text(at, end);
    return at;
}

/* The one pass over the catalogue: checks all of it and notes each row's
   place. "It holds the row count (0 to 1,024), then for each row ... No bytes
   may follow." */
static bool read_catalogue(const uint8_t *bytes, size_t length,
                           struct catalogue *catalogue)
{
    if (length == 0 || length > MOST_CATALOGUE_BYTES)
        return false;
    const uint8_t *end = bytes + length;
    const uint8_t *at = checked_number(bytes, end, &catalogue->row_count);
    if (at == NULL || catalogue->row_count > PEER_ROWS)
        return false;
    for (uint32_t row = 0; row < catalogue->row_count; row++) {
        catalogue->row_places[row] = (uint32_t)(at - bytes);
        at = checked_row(at, end);
        if (at == NULL)
            return false;
    }
    catalogue->bytes = bytes;
    return at == end;
}

#ifndef PEER_TUNED
/* Reads one number of a catalogue that was found well formed. */
static inline uint32_t next_number(const uint8_t **at)
{
    const uint8_t *next = *at;
    uint32_t number = *next & GROUP_MASK;
    for (unsigned shift = GROUP_BITS; (*next++ & MORE_GROUPS) != 0;
         shift += GROUP_BITS)
        number |= (uint32_t)(*next & GROUP_MASK) << shift;
    *at = next;
    return number;
}

static inline struct text next_text(const uint8_t **at)
{
    uint32_t count_plus_one = next_number(at);
    if (count_plus_one == 0)
        return (struct text){.present = false};
    struct text text = {true, count_plus_one - 1, *at};
    *at += 2 * (size_t)text.units;
    return text;
}

static void read_row(const struct catalogue *catalogue, struct peer_row which,
                     struct row *row)
{
    const uint8_t *at =
        catalogue->bytes + catalogue->row_places[which.number];
    for (unsigned number = 0; number < 3; number++)
        row->numbers[number] = next_number(&at);
    for (unsigned text = 0; text < 2; text++)
        row->texts[text] = next_text(&at);
}
#endif

static inline uint32_t number_of(const struct row *row, uint32_t property)
{
    return row->numbers[property - PROPERTY_KEY];
}

static inline const struct text *text_of(const struct row *row,
                                         uint32_t property)
{
    return &row->texts[property - PROPERTY_LABEL];
}

/* ------------------------------------------------------------------------ */
/* Bindings: whether they fit                                               */
/* ------------------------------------------------------------------------ */

/* Types: 0x000C is a 16-byte cell, 0x0013 a number, 0x001F a text. */
enum { TYPE_CELL = 0x000C, TYPE_NUMBER = 0x0013, TYPE_TEXT = 0x001F };
enum { CELL_BYTES = 16, NUMBER_BYTES = 4, STATUS_BYTES = 1, LENGTH_BYTES = 4 };
enum { MOST_ROW_WIDTH = 4096 };

/* "a used span (value, status of 1 byte, length of 4)": at most three for each
   column. */
struct spans {
    unsigned count;
    struct {
        uint32_t start, end;
    } span[3 * PEER_COLUMNS];
};

/* "a used span ... past _cbRow or meeting another" is unfit. Spans meet when
   they share a byte. An offset of the table may be any word: the sum is taken
   without wrapping. */
static bool add_span(struct spans *spans, uint32_t row_width, uint32_t offset,
                     uint32_t size)
{
    if ((uint64_t)offset + size > row_width)
        return false;
    uint32_t end = offset + size;
    for (unsigned other = 0; other < spans->count; other++)
        if (offset < spans->span[other].end && spans->span[other].start < end)
            return false;
    spans->span[spans->count].start = offset;
    spans->span[spans->count].end = end;
    spans->count++;
    return true;
}

/* "type other than 0x000C with value size 16, or 0x0013 with size 4 on
   properties 2 to 4" is unfit. "Where a value isn't used, its type is judged
   against its property, its size isn't." */
static bool type_fits(const uint32_t *column)
{
    uint32_t size;
    if (column[COLUMN_TYPE] == TYPE_CELL)
        size = CELL_BYTES;
    else if (column[COLUMN_TYPE] == TYPE_NUMBER &&
             is_number(column[COLUMN_PROPERTY]))
        size = NUMBER_BYTES;
    else
        return false;
    return !column[COLUMN_VALUE_USED] || column[COLUMN_VALUE_SIZE] == size;
}

static bool column_spans_fit(struct spans *spans, const uint32_t *column,
                             uint32_t row_width)
{
    return (!column[COLUMN_VALUE_USED] ||
            add_span(spans, row_width, column[COLUMN_VALUE_OFFSET],
                     column[COLUMN_VALUE_SIZE])) &&
           (!column[COLUMN_STATUS_USED] ||
            add_span(spans, row_width, column[COLUMN_STATUS_OFFSET],
                     STATUS_BYTES)) &&
           (!column[COLUMN_LENGTH_USED] ||
            add_span(spans, row_width, column[COLUMN_LENGTH_OFFSET],
                     LENGTH_BYTES));
}

/* "Unfit (12): columns not 1 to 5; _cbRow not 1 to 4,096; property unknown or
   bound twice", and then each column's type and spans. */
static bool bindings_fit(const uint32_t *columns, uint32_t column_count,
                         uint32_t row_width)
{
    if (column_count < 1 || column_count > PEER_COLUMNS || row_width < 1 ||
        row_width > MOST_ROW_WIDTH)
        return false;
    struct spans spans = {.count = 0};
    uint32_t bound = 0;
    for (uint32_t number = 0; number < column_count; number++) {
        const uint32_t *column = columns + number * COLUMN_WORDS;
        uint32_t property = column[COLUMN_PROPERTY];
        if (!is_number(property) && !is_text(property))
            return false;
        if (bound & 1u << property)
            return false;
        bound |= 1u << property;
        if (!type_fits(column) || !column_spans_fit(&spans, column, row_width))
            return false;
    }
    return true;
}

/* ------------------------------------------------------------------------ */
/* The session table                                                        */
/* ------------------------------------------------------------------------ */

static inline uint32_t *seat_block(uint32_t *table, struct peer_seat seat)
{
    return table + seat.number * SEAT_WORDS;
}

/* A seat's cursor by its place, 0 or 1. The handle is one more. */
static inline uint32_t *cursor_block(uint32_t *seat, unsigned place)
{
    return seat + SEAT_CURSORS + place * CURSOR_WORDS;
}

#ifndef PEER_TUNED
/* Sixteen words are joined at a time, without a branch for each. */
static bool all_zero(const uint32_t *words, size_t count)
{
    size_t word = 0;
    for (; count - word >= 16; word += 16) {
        uint32_t joined = 0;
        for (unsigned next = 0; next < 16; next++)
            joined |= words[word + next];
        if (joined != 0)
            return false;
    }
    for (; word < count; word++)
        if (words[word] != 0)
            return false;
    return true;
}

static bool rise_strictly(const uint32_t *numbers, uint32_t count)
{
    for (uint32_t next = 1; next < count; next++)
        if (numbers[next - 1] >= numbers[next])
            return false;
    return true;
}
#endif

/* "a word not in use (closed cursor, unconnected seat, past a list's end)
   isn't zero": a column's offset and size are not in use under an unset flag.
   A flag is 0 or 1. */
static bool column_words_well_formed(const uint32_t *column)
{
    if (column[COLUMN_VALUE_USED] > 1 || column[COLUMN_STATUS_USED] > 1 ||
        column[COLUMN_LENGTH_USED] > 1)
        return false;
    if (!column[COLUMN_VALUE_USED] &&
        (column[COLUMN_VALUE_OFFSET] != 0 || column[COLUMN_VALUE_SIZE] != 0))
        return false;
    if (!column[COLUMN_STATUS_USED] && column[COLUMN_STATUS_OFFSET] != 0)
        return false;
    return column[COLUMN_LENGTH_USED] || column[COLUMN_LENGTH_OFFSET] == 0;
}

/* "its bindings (if any) pass 12"; without any, the width and all five column
   records are not in use. */
static bool cursor_bindings_well_formed(const uint32_t *cursor)
{
    uint32_t count = cursor[CURSOR_COLUMN_COUNT];
    const uint32_t *columns = cursor + CURSOR_COLUMNS;
    if (count > PEER_COLUMNS)
        return false;
    if (!all_zero(columns + count * COLUMN_WORDS,
                  (PEER_COLUMNS - count) * COLUMN_WORDS))
        return false;
    if (count == 0)
        return cursor[CURSOR_ROW_WIDTH] == 0;
    for (uint32_t number = 0; number < count; number++)
        if (!column_words_well_formed(columns + number * COLUMN_WORDS))
            return false;
    return bindings_fit(columns, count, cursor[CURSOR_ROW_WIDTH]);
}

/* "every open cursor's position is at most its selection's length, its row
   numbers rise strictly". Whether they are below the row count is refusal 3. */
static bool cursor_selection_well_formed(const uint32_t *cursor)
{
    uint32_t selected = cursor[CURSOR_SELECTED];
    const uint32_t *row_numbers = cursor + CURSOR_ROW_NUMBERS;
    if (selected > PEER_ROWS || cursor[CURSOR_POSITION] > selected)
        return false;
    return rise_strictly(row_numbers, selected) &&
           all_zero(row_numbers + selected, PEER_ROWS - selected);
}

static bool cursor_well_formed(const uint32_t *cursor)
{
    if (cursor[CURSOR_OPEN] == 0)
        return all_zero(cursor, CURSOR_WORDS);
    return cursor[CURSOR_OPEN] == 1 && cursor_bindings_well_formed(cursor) &&
           cursor_selection_well_formed(cursor);
}

/* "Every call judges the whole table for 2 and 3, all seats." An unconnected
   seat holds nothing but zeros, so no cursor of it is open. */
static bool table_well_formed(uint32_t *table, size_t table_words)
{
    if (table_words != PEER_TABLE_WORDS)
        return false;
    for (uint32_t number = 0; number < PEER_SEATS; number++) {
        uint32_t *seat = seat_block(table, (struct peer_seat){number});
        if (seat[SEAT_CONNECTED] == 0) {
            if (!all_zero(seat, SEAT_WORDS))
                return false;
            continue;
        }
        if (seat[SEAT_CONNECTED] != 1)
            return false;
        for (unsigned place = 0; place < PEER_CURSORS; place++)
            if (!cursor_well_formed(cursor_block(seat, place)))
                return false;
    }
    return true;
}

/* The second half of 3: "an open cursor's row number not below its row count".
   In a table that passed 2 the row numbers rise, so the last is the largest;
   a closed cursor selects nothing. */
static bool row_numbers_below(uint32_t *table, uint32_t row_count)
{
    for (uint32_t number = 0; number < PEER_SEATS; number++) {
        uint32_t *seat = seat_block(table, (struct peer_seat){number});
        for (unsigned place = 0; place < PEER_CURSORS; place++) {
            const uint32_t *cursor = cursor_block(seat, place);
            uint32_t selected = cursor[CURSOR_SELECTED];
            if (selected > 0 &&
                cursor[CURSOR_ROW_NUMBERS + selected - 1] >= row_count)
                return false;
        }
    }
    return true;
}

/* Refusals 1 to 3, which every call shares. Where none is given, the catalogue
   is read. */
static uint32_t judge_lent(struct peer_lent lent, struct peer_seat seat,
                           struct catalogue *catalogue)
{
    if (seat.number >= PEER_SEATS)
        return SEAT_ABOVE_7;
    if (!table_well_formed(lent.table, lent.table_words))
        return TABLE_MALFORMED;
    if (!read_catalogue(lent.catalogue, lent.catalogue_length, catalogue) ||
        !row_numbers_below(lent.table, catalogue->row_count))
        return CATALOGUE_MALFORMED;
    return ACCEPTED;
}

/* The cursor of a handle, or NULL: "handle not open on this seat". */
static uint32_t *open_cursor(uint32_t *seat, struct peer_handle handle)
{
    if (handle.number < 1 || handle.number > PEER_CURSORS)
        return NULL;
    uint32_t *cursor = cursor_block(seat, handle.number - 1);
    return cursor[CURSOR_OPEN] ? cursor : NULL;
}

/* "opening takes the lowest free handle". Handle 0 where both are open. */
static struct peer_handle lowest_free_handle(uint32_t *seat)
{
    for (unsigned place = 0; place < PEER_CURSORS; place++)
        if (!cursor_block(seat, place)[CURSOR_OPEN])
            return (struct peer_handle){place + 1};
    return (struct peer_handle){0};
}

static uint32_t open_cursor_count(uint32_t *seat)
{
    uint32_t count = 0;
    for (unsigned place = 0; place < PEER_CURSORS; place++)
        count += cursor_block(seat, place)[CURSOR_OPEN];
    return count;
}

/* ------------------------------------------------------------------------ */
/* Restriction trees                                                        */
/* ------------------------------------------------------------------------ */

/* "Served: and 1, or 2, not 3, content 4, property 5." */
enum { AND = 1, OR = 2, NOT = 3, CONTENT = 4, PROPERTY = 5 };

/* "relations 0 to 5 (<, <=, >, >=, =, not equal)". */
enum {
    LESS = 0,
    LESS_OR_EQUAL = 1,
    GREATER = 2,
    GREATER_OR_EQUAL = 3,
    EQUAL = 4,
    NOT_EQUAL = 5
};

/* "phrase of 1 to 64 units, method 0 or 1". */
enum { MOST_PHRASE_UNITS = 64, METHOD_EXACT = 0, METHOD_PREFIX = 1 };

/* "Limits: 4,096 bytes, 64 nodes, 8 levels (root is 1)." */
enum { MOST_TREE_BYTES = 4096, MOST_NODES = 64, MOST_LEVELS = 8 };

/* A node, "a restriction whose kind decides what follows". Its children are
   the nodes from the next on up to `after`, each with its own descendants. */
struct node {
    uint32_t kind;
    uint32_t after;
    uint32_t property;
    uint32_t relation;
    uint32_t value;
    const uint8_t *phrase;
    uint32_t phrase_units;
    uint32_t method;
};

struct tree {
    uint32_t node_count;
    struct node nodes[MOST_NODES];
};

static bool read_node(struct reader *reader, struct tree *tree,
                      unsigned levels_left);

/* "Children follow each other, each node a restriction": each begins at a
   multiple of 4. */
static bool read_children(struct reader *reader, struct tree *tree,
                          uint32_t count, unsigned levels_left)
{
    for (uint32_t child = 0; child < count; child++)
        if (!take_padding(reader, 4) || !read_node(reader, tree, levels_left))
            return false;
    return true;
}

/* "And/or have at least one child." */
static bool read_and_or(struct reader *reader, struct tree *tree,
                        unsigned levels_left)
{
    uint32_t count;
    return take32(reader, &count) && count > 0 &&
           read_children(reader, tree, count, levels_left);
}

/* "Content: properties 5 and 6, phrase of 1 to 64 units, method 0 or 1." The
   locale is "read and ignored". */
static bool read_content(struct reader *reader, struct node *node)
{
    uint32_t locale;
    if (!take_property(reader, &node->property) || !is_text(node->property) ||
        !take_padding(reader, 4) || !take32(reader, &node->phrase_units) ||
        node->phrase_units < 1 || node->phrase_units > MOST_PHRASE_UNITS)
        return false;
    node->phrase = take(reader, 2 * (size_t)node->phrase_units);
    return node->phrase != NULL && take_padding(reader, 4) &&
           take32(reader, &locale) && take32(reader, &node->method) &&
           node->method <= METHOD_PREFIX;
}

/* "Property: relations 0 to 5 ..., unsigned, properties 2 to 4, value type
   0x0013, its two data bytes zero." */
static bool read_property(struct reader *reader, struct node *node)
{
    uint32_t type, data;
    return take32(reader, &node->relation) && node->relation <= NOT_EQUAL &&
           take_property(reader, &node->property) &&
           is_number(node->property) && take16(reader, &type) &&
           type == TYPE_NUMBER && take16(reader, &data) && data == 0 &&
           take32(reader, &node->value);
}

/* One node and all below it: type, weight, and what the type decides. "Weight
   and locale are read and ignored." */
static bool read_node(struct reader *reader, struct tree *tree,
                      unsigned levels_left)
{
    if (levels_left == 0 || tree->node_count == MOST_NODES)
        return false;
    struct node *node = &tree->nodes[tree->node_count++];
    uint32_t weight;
    if (!take32(reader, &node->kind) || !take32(reader, &weight))
        return false;
    bool well_formed;
    switch (node->kind) {
    case AND:
    case OR:
        well_formed = read_and_or(reader, tree, levels_left - 1);
        break;
    case NOT:
        well_formed = read_node(reader, tree, levels_left - 1);
        break;
    case CONTENT:
        well_formed = read_content(reader, node);
        break;
    case PROPERTY:
        well_formed = read_property(reader, node);
        break;
    default:
        well_formed = false;
    }
    node->after = tree->node_count;
    return well_formed;
}

/* "Padding is zero and all bytes are used." */
static bool read_tree(const uint8_t *bytes, size_t length, struct tree *tree)
{
    struct reader reader = {bytes, length, 0};
    tree->node_count = 0;
    return length > 0 && length <= MOST_TREE_BYTES &&
           read_node(&reader, tree, MOST_LEVELS) && all_read(&reader);
}

enum { SPACE = 0x0020 };

/* "its units stand in a row" from this place of the text on. */
static bool phrase_stands_at(const uint8_t *text, const uint8_t *phrase,
                             uint32_t phrase_units)
{
    for (uint32_t unit = 0; unit < phrase_units; unit++)
        if (get16(text + 2 * unit) != get16(phrase + 2 * unit))
            return false;
    return true;
}

/* "A phrase occurs where its units stand in a row, starting at the text's
   start or after unit 0x0020 and, for method 0, ending at the text's end or
   before 0x0020. Absent text holds no phrase". A place that fails its right
   edge doesn't end the search. */
static bool phrase_occurs(const struct text *text, const struct node *content)
{
    if (!text->present || text->units < content->phrase_units)
        return false;
    uint32_t last_start = text->units - content->phrase_units;
    for (uint32_t start = 0; start <= last_start; start++) {
        const uint8_t *at = text->bytes + 2 * (size_t)start;
        if (start > 0 && get16(at - 2) != SPACE)
            continue;
        if (!phrase_stands_at(at, content->phrase, content->phrase_units))
            continue;
        if (content->method == METHOD_EXACT && start < last_start &&
            get16(at + 2 * (size_t)content->phrase_units) != SPACE)
            continue;
        return true;
    }
    return false;
}

#ifndef PEER_TUNED
/* The row's value, the relation, the tree's value, all unsigned. */
static bool relation_holds(uint32_t value, uint32_t relation, uint32_t other)
{
    switch (relation) {
    case LESS:
        return value < other;
    case LESS_OR_EQUAL:
        return value <= other;
    case GREATER:
        return value > other;
    case GREATER_OR_EQUAL:
        return value >= other;
    case EQUAL:
        return value == other;
    default:
        return value != other;
    }
}

/* Whether a row satisfies the node of this number and all below it. */
static bool satisfies(const struct tree *tree, uint32_t number,
                      const struct row *row)
{
    const struct node *node = &tree->nodes[number];
    switch (node->kind) {
    case CONTENT:
        return phrase_occurs(text_of(row, node->property), node);
    case PROPERTY:
        return relation_holds(number_of(row, node->property), node->relation,
                              node->value);
    case NOT:
        return !satisfies(tree, number + 1, row);
    default:
        break;
    }
    /* And looks for a child that fails, or for one that holds. */
    bool looked_for = node->kind == OR;
    for (uint32_t child = number + 1; child < node->after;
         child = tree->nodes[child].after)
        if (satisfies(tree, child, row) == looked_for)
            return looked_for;
    return !looked_for;
}
#endif

/* Writes the numbers of the selected rows, rising, and answers their count. */
static uint32_t select_rows(const struct catalogue *catalogue,
                            const struct tree *tree, uint32_t *row_numbers)
{
    uint32_t selected = 0;
    for (uint32_t number = 0; number < catalogue->row_count; number++) {
        struct row row;
        read_row(catalogue, (struct peer_row){number}, &row);
        if (satisfies(tree, 0, &row))
            row_numbers[selected++] = number;
    }
    return selected;
}

/* ------------------------------------------------------------------------ */
/* Header and checksum                                                      */
/* ------------------------------------------------------------------------ */

/* "Sixteen bytes, four little-endian words: _msg, _status, _ulChecksum,
   _ulReserved2. A request's _status and _ulReserved2 aren't judged." */
enum {
    HEADER_MSG = 0,
    HEADER_STATUS = 4,
    HEADER_CHECKSUM = 8,
    HEADER_BYTES = 16
};

/* "message under 16 or over 16,384 bytes" is refusal 5. */
enum { LEAST_MESSAGE_BYTES = HEADER_BYTES, MOST_MESSAGE_BYTES = 16384 };

/* "reply buffer under 16,384 bytes (messages only)" is refusal 4. */
enum { LEAST_REPLY_ROOM = 16384 };

/* "Numbers: disconnect 0xC9, free cursor 0xCB, get rows 0xCC, set bindings
   0xD0." */
enum {
    DISCONNECT = 0xC9,
    FREE_CURSOR = 0xCB,
    GET_ROWS = 0xCC,
    SET_BINDINGS = 0xD0
};

/* "For a client version of 8 or above the checksum of get rows and set
   bindings is tested". */
enum { FIRST_TESTED_VERSION = 8 };

static bool message_size_served(size_t length)
{
    return length >= LEAST_MESSAGE_BYTES && length <= MOST_MESSAGE_BYTES;
}

static bool message_served(uint32_t msg)
{
    return msg == DISCONNECT || msg == FREE_CURSOR || msg == GET_ROWS ||
           msg == SET_BINDINGS;
}

static bool checksum_tested(uint32_t msg, uint32_t client_version)
{
    return client_version >= FIRST_TESTED_VERSION &&
           (msg == GET_ROWS || msg == SET_BINDINGS);
}

/* "add the 32-bit little-endian words after the header modulo 2^32, a last
   short word filled with zero bytes; exclusive-or with 0x59533959; subtract
   _msg modulo 2^32." */
static uint32_t checksum_of(const uint8_t *message, size_t length)
{
    uint32_t sum = 0;
    size_t place = HEADER_BYTES;
    for (; length - place >= 4; place += 4)
        sum += get32(message + place);
    for (unsigned shift = 0; place < length; place++, shift += 8)
        sum += (uint32_t)message[place] << shift;
    return (sum ^ 0x59533959) - get32(message + HEADER_MSG);
}

/* The sixteen bytes of a header: _msg, a status, zero, zero. */
static void write_header(uint8_t *reply, uint32_t msg, uint32_t status)
{
    memset(reply, 0, HEADER_BYTES);
    put32(reply + HEADER_MSG, msg);
    put32(reply + HEADER_STATUS, status);
}

static struct peer_answer refused(uint32_t refusal)
{
    return (struct peer_answer){refusal, 0};
}

static struct peer_answer served(uint32_t count)
{
    return (struct peer_answer){ACCEPTED, count};
}

/* ------------------------------------------------------------------------ */
/* A page of rows                                                           */
/* ------------------------------------------------------------------------ */

/* "Body: _hCursor, _cRowsToTransfer, _cbRowWidth, _cbSeek, _cbReserved,
   _cbReadBuffer, _ulClientBase, _fBwdFetch, eType, _chapt, seek." */
struct rows_request {
    struct peer_handle handle;
    uint32_t rows_asked;
    uint32_t row_width;
    uint32_t seek_bytes;
    uint32_t reserved;
    uint32_t read_buffer; /* B */
    uint32_t client_base;
    uint32_t backward;
    uint32_t seek_type;
    uint32_t chapter;
    uint32_t skip;
};

enum { ROWS_BODY = 40, ROWS_BODY_NEXT = 44 };
enum { SEEK_NEXT = 1, SEEK_NEXT_BYTES = 12 };
enum { LEAST_RESERVED = 20, MOST_RESERVED = 64 };
enum { READ_BUFFER_STEP = 512, MOST_READ_BUFFER = 16384 };

/* "Malformed: under 40 bytes; _cbReserved not 20 to 64; _cbReadBuffer (call it
   B) not a multiple of 512 from 512 to 16,384; _ulClientBase + B above
   4,294,967,295; _fBwdFetch above 1; or eType 1 with a body other than 44
   bytes or _cbSeek other than 12." */
static bool rows_request_well_formed(const struct rows_request *request,
                                     size_t body_length)
{
    uint32_t buffer = request->read_buffer;
    if (request->reserved < LEAST_RESERVED || request->reserved > MOST_RESERVED)
        return false;
    if (buffer == 0 || buffer > MOST_READ_BUFFER ||
        buffer % READ_BUFFER_STEP != 0)
        return false;
    if (request->client_base > 0xFFFFFFFF - buffer || request->backward > 1)
        return false;
    return request->seek_type != SEEK_NEXT ||
           (body_length == ROWS_BODY_NEXT &&
            request->seek_bytes == SEEK_NEXT_BYTES);
}

static bool read_rows_request(const uint8_t *body, size_t body_length,
                              struct rows_request *request)
{
    if (body_length < ROWS_BODY)
        return false;
    request->handle.number = get32(body);
    request->rows_asked = get32(body + 4);
    request->row_width = get32(body + 8);
    request->seek_bytes = get32(body + 12);
    request->reserved = get32(body + 16);
    request->read_buffer = get32(body + 20);
    request->client_base = get32(body + 24);
    request->backward = get32(body + 28);
    request->seek_type = get32(body + 32);
    request->chapter = get32(body + 36);
    if (!rows_request_well_formed(request, body_length))
        return false;
    request->skip = request->seek_type == SEEK_NEXT ? get32(body + 40) : 0;
    return true;
}

/* "Not served (13): eType other than 1, nonzero chapter, skip or _fBwdFetch."
   So a seek that is served has eType 1 and zeros in the other three. */
static bool seek_served(const struct rows_request *request)
{
    return request->seek_type == SEEK_NEXT && request->chapter == 0 &&
           request->skip == 0 && request->backward == 0;
}

/* "The reply is B bytes: header, _cRowsReturned, eType, _chapt, skip, then rows
   from R = _cbReserved + 12". */
enum { REPLY_ROWS_RETURNED = 16, REPLY_SEEK_TYPE = 20 };
enum { ROWS_PAST_RESERVED = 12 };

/* "Status 0x00040EC6 if none then remain, else 0." */
enum { END_OF_ROWSET = 0x00040EC6 };

/* "a block: its units and one zero unit". */
static inline uint32_t block_bytes(const struct text *text)
{
    return 2 * text->units + 2;
}

/* "A 16-byte cell is type (2 bytes), 6 zero bytes, then 8: ... in the first
   4". */
static void write_cell(uint8_t *cell, uint32_t type, uint32_t number)
{
    put16(cell, type);
    put32(cell + 8, number);
}

/* "Status byte: 0 present, 2 absent." */
enum { STATUS_ABSENT = 2 };

/* "0x0013 with the number in the first 4"; "A 4-byte cell is the number."
   "Length: 4 for a number". Its status is 0, which the byte is already. */
static void carry_number(uint8_t *row, const uint32_t *column, uint32_t number)
{
    if (column[COLUMN_VALUE_USED]) {
        uint8_t *cell = row + column[COLUMN_VALUE_OFFSET];
        if (column[COLUMN_TYPE] == TYPE_NUMBER)
            put32(cell, number);
        else
            write_cell(cell, TYPE_NUMBER, number);
    }
    if (column[COLUMN_LENGTH_USED])
        put32(row + column[COLUMN_LENGTH_OFFSET], NUMBER_BYTES);
}

/* A reply as it is filled: rows upward from R, "Blocks go downward from byte
   B, rows in order, columns in binding order." */
struct page {
    uint8_t *reply;
    uint32_t client_base;
    uint32_t row_width;
    const uint32_t *columns, *columns_end;
    uint32_t rows_end;     /* the place after the last row */
    uint32_t blocks_start; /* the place of the lowest block */
#ifdef PEER_TUNED
    bool has_block[2]; /* label and note, where they are present */
#endif
};

#ifndef PEER_TUNED
/* "Each label or note that is present and bound with its value used has a
   block". */
static uint32_t row_block_bytes(const struct page *page, const struct row *row)
{
    uint32_t bytes = 0;
    for (const uint32_t *column = page->columns; column != page->columns_end;
         column += COLUMN_WORDS) {
        if (!column[COLUMN_VALUE_USED] || !is_text(column[COLUMN_PROPERTY]))
            continue;
        const struct text *text = text_of(row, column[COLUMN_PROPERTY]);
        if (text->present)
            bytes += block_bytes(text);
    }
    return bytes;
}

static void copy_units(uint8_t *to, const uint8_t *from, size_t bytes)
{
    memcpy(to, from, bytes);
}
#endif

static struct page start_page(const struct rows_request *request,
                              const uint32_t *cursor, uint8_t *reply)
{
    const uint32_t *columns = cursor + CURSOR_COLUMNS;
    struct page page = {
        .reply = reply,
        .client_base = request->client_base,
        .row_width = cursor[CURSOR_ROW_WIDTH],
        .columns = columns,
        .columns_end = columns + cursor[CURSOR_COLUMN_COUNT] * COLUMN_WORDS,
        .rows_end = request->reserved + ROWS_PAST_RESERVED,
        .blocks_start = request->read_buffer,
    };
#ifdef PEER_TUNED
    find_blocks(&page);
#endif
    return page;
}

/* "K rows fit when R + K × W + their blocks is at most B": one more row fits
   when it and its blocks go between the rows and the blocks so far. */
static bool row_fits(const struct page *page, const struct row *row)
{
    return page->rows_end + page->row_width + row_block_bytes(page, row) <=
           page->blocks_start;
}

/* "0x001F with _ulClientBase plus the block's place from the reply's start in
   the first 4; absent text, 16 zeros." "for text two bytes a unit and two more,
   also where no value is bound; 0 if absent." A block has the units as they
   stand in the catalogue, low byte first; its zero unit is zero already. */
static void carry_text(struct page *page, uint8_t *row, const uint32_t *column,
                       const struct text *text)
{
    if (!text->present) {
        if (column[COLUMN_STATUS_USED])
            row[column[COLUMN_STATUS_OFFSET]] = STATUS_ABSENT;
        return;
    }
    uint32_t bytes = block_bytes(text);
    if (column[COLUMN_VALUE_USED]) {
        page->blocks_start -= bytes;
        write_cell(row + column[COLUMN_VALUE_OFFSET], TYPE_TEXT,
                   page->client_base + page->blocks_start);
        copy_units(page->reply + page->blocks_start, text->bytes, bytes - 2);
    }
    if (column[COLUMN_LENGTH_USED])
        put32(row + column[COLUMN_LENGTH_OFFSET], bytes);
}

static void carry_row(struct page *page, const struct row *row)
{
    uint8_t *cells = page->reply + page->rows_end;
    for (const uint32_t *column = page->columns; column != page->columns_end;
         column += COLUMN_WORDS) {
        uint32_t property = column[COLUMN_PROPERTY];
        if (is_text(property))
            carry_text(page, cells, column, text_of(row, property));
        else
            carry_number(cells, column, number_of(row, property));
    }
    page->rows_end += page->row_width;
}

/* "the reply's row j is the selected row at the old position plus j." */
static void read_selected_row(const struct catalogue *catalogue,
                              const uint32_t *cursor, uint32_t place,
                              struct row *row)
{
    struct peer_row which = {cursor[CURSOR_ROW_NUMBERS + place]};
    read_row(catalogue, which, row);
}

/* "Returned: the least of rows asked, rows remaining, and the greatest K that
   fits; the position moves by it." Fills the page, moves the position, and
   answers 0, or 15 before a byte is written: "a row is asked for and remains,
   but the first doesn't fit". */
static uint32_t fill_page(const struct rows_request *request,
                          const struct catalogue *catalogue, uint32_t *cursor,
                          uint8_t *reply)
{
    uint32_t position = cursor[CURSOR_POSITION];
    uint32_t remaining = cursor[CURSOR_SELECTED] - position;
    uint32_t most =
        request->rows_asked < remaining ? request->rows_asked : remaining;
    struct page page = start_page(request, cursor, reply);
    struct row row;

    if (most > 0) {
        read_selected_row(catalogue, cursor, position, &row);
        if (!row_fits(&page, &row))
            return FIRST_ROW_TOO_LARGE;
    }
    /* "All bytes not named are zero; those past B are unchanged." */
    memset(reply, 0, request->read_buffer);
    uint32_t returned = 0;
    while (returned < most) {
        carry_row(&page, &row);
        returned++;
        if (returned == most)
            break;
        read_selected_row(catalogue, cursor, position + returned, &row);
        if (!row_fits(&page, &row))
            break;
    }
    cursor[CURSOR_POSITION] = position + returned;
    put32(reply + HEADER_MSG, GET_ROWS);
    put32(reply + HEADER_STATUS, returned == remaining ? END_OF_ROWSET : 0);
    put32(reply + REPLY_ROWS_RETURNED, returned);
    put32(reply + REPLY_SEEK_TYPE, SEEK_NEXT);
    return ACCEPTED;
}

static struct peer_answer serve_rows(const struct catalogue *catalogue,
                                     uint32_t *seat, const uint8_t *message,
                                     size_t length, uint8_t *reply)
{
    struct rows_request request;
    if (!read_rows_request(message + HEADER_BYTES, length - HEADER_BYTES,
                           &request))
        return refused(BODY_MALFORMED);
    uint32_t *cursor = open_cursor(seat, request.handle);
    if (cursor == NULL)
        return refused(HANDLE_NOT_OPEN);
    if (cursor[CURSOR_COLUMN_COUNT] == 0)
        return refused(NO_BINDINGS);
    if (request.row_width != cursor[CURSOR_ROW_WIDTH])
        return refused(BINDINGS_UNFIT);
    if (!seek_served(&request))
        return refused(SEEK_NOT_SERVED);
    uint32_t refusal = fill_page(&request, catalogue, cursor, reply);
    return refusal ? refused(refusal) : served(request.read_buffer);
}

/* ------------------------------------------------------------------------ */
/* Setting bindings                                                         */
/* ------------------------------------------------------------------------ */

/* The width of CTableColumn's vType: the source gives its place, not its
   width. 4 or 2. */
enum { COLUMN_TYPE_BYTES = 4 };

/* "_cbBindingDesc not the bytes after _dummy" is malformed: those start 16
   bytes into the body. */
enum { BINDING_DESC_PLACE = HEADER_BYTES + 16 };

/* "Body: _hCursor, _cbRow, _cbBindingDesc, _dummy, cColumns, columns." The
   records of the first five columns are kept; more are read, and are unfit. */
struct bindings {
    struct peer_handle handle;
    uint32_t row_width;
    uint32_t column_count;
    uint32_t columns[PEER_COLUMNS * COLUMN_WORDS];
};

/* A used flag: "a used flag other than 0 or 1" is malformed. */
static bool take_flag(struct reader *reader, uint32_t *flag)
{
    return take8(reader, flag) && *flag <= 1;
}

/* An offset begins at an even place of the message, after a padding byte where
   it would not otherwise. */
static bool take_offset(struct reader *reader, uint32_t *offset)
{
    return take_padding(reader, 2) && take16(reader, offset);
}

static bool take_column_type(struct reader *reader, uint32_t *type)
{
    return COLUMN_TYPE_BYTES == 4 ? take32(reader, type) : take16(reader, type);
}

/* CTableColumn: property, vType, then value, status and length, each a used
   flag and, where it is set, an offset (and for the value its size). Where it
   isn't, the words of the record stay zero. */
static bool take_column(struct reader *reader, uint32_t *column)
{
    memset(column, 0, COLUMN_WORDS * sizeof *column);
    if (!take_property(reader, &column[COLUMN_PROPERTY]) ||
        !take_column_type(reader, &column[COLUMN_TYPE]))
        return false;
    if (!take_flag(reader, &column[COLUMN_VALUE_USED]))
        return false;
    if (column[COLUMN_VALUE_USED] &&
        !(take_offset(reader, &column[COLUMN_VALUE_OFFSET]) &&
          take16(reader, &column[COLUMN_VALUE_SIZE])))
        return false;
    if (!take_flag(reader, &column[COLUMN_STATUS_USED]))
        return false;
    if (column[COLUMN_STATUS_USED] &&
        !take_offset(reader, &column[COLUMN_STATUS_OFFSET]))
        return false;
    if (!take_flag(reader, &column[COLUMN_LENGTH_USED]))
        return false;
    return !column[COLUMN_LENGTH_USED] ||
           take_offset(reader, &column[COLUMN_LENGTH_OFFSET]);
}

/* "Malformed (9): ends early or has bytes left, padding not zero, a used flag
   other than 0 or 1, _cbBindingDesc not the bytes after _dummy." Columns begin
   at multiples of 4 from the message's first byte; nothing follows the last. */
static bool read_bindings(const uint8_t *message, size_t length,
                          struct bindings *bindings)
{
    struct reader reader = {message, length, HEADER_BYTES};
    uint32_t binding_desc, dummy;
    if (!take32(&reader, &bindings->handle.number) ||
        !take32(&reader, &bindings->row_width) ||
        !take32(&reader, &binding_desc) || !take32(&reader, &dummy) ||
        !take32(&reader, &bindings->column_count))
        return false;
    if (binding_desc != length - BINDING_DESC_PLACE)
        return false;
    uint32_t unkept[COLUMN_WORDS];
    for (uint32_t number = 0; number < bindings->column_count; number++) {
        uint32_t *column = number < PEER_COLUMNS
                               ? bindings->columns + number * COLUMN_WORDS
                               : unkept;
        if (!take_padding(&reader, 4) || !take_column(&reader, column))
            return false;
    }
    return all_read(&reader);
}

/* "Accepted bindings replace the old; the position stays; the reply is 16
   bytes: _msg, zero, zero, zero." */
static struct peer_answer serve_bindings(uint32_t *seat, const uint8_t *message,
                                         size_t length, uint8_t *reply)
{
    struct bindings bindings;
    if (!read_bindings(message, length, &bindings))
        return refused(BODY_MALFORMED);
    uint32_t *cursor = open_cursor(seat, bindings.handle);
    if (cursor == NULL)
        return refused(HANDLE_NOT_OPEN);
    if (!bindings_fit(bindings.columns, bindings.column_count,
                      bindings.row_width))
        return refused(BINDINGS_UNFIT);
    uint32_t *columns = cursor + CURSOR_COLUMNS;
    size_t words = bindings.column_count * COLUMN_WORDS;
    memset(columns, 0, PEER_COLUMNS * COLUMN_WORDS * sizeof *columns);
    memcpy(columns, bindings.columns, words * sizeof *columns);
    cursor[CURSOR_COLUMN_COUNT] = bindings.column_count;
    cursor[CURSOR_ROW_WIDTH] = bindings.row_width;
    write_header(reply, SET_BINDINGS, 0);
    return served(HEADER_BYTES);
}

/* ------------------------------------------------------------------------ */
/* Freeing a cursor and disconnecting                                       */
/* ------------------------------------------------------------------------ */

enum { FREE_BODY = 4, FREE_REPLY = 20, REPLY_CURSORS_REMAINING = 16 };

/* "Free cursor has a body of exactly 4 bytes; its reply is _msg, three zero
   words and the seat's count of cursors still open, 20 bytes." */
static struct peer_answer serve_free_cursor(uint32_t *seat,
                                            const uint8_t *message,
                                            size_t length, uint8_t *reply)
{
    if (length != HEADER_BYTES + FREE_BODY)
        return refused(BODY_MALFORMED);
    struct peer_handle handle = {get32(message + HEADER_BYTES)};
    uint32_t *cursor = open_cursor(seat, handle);
    if (cursor == NULL)
        return refused(HANDLE_NOT_OPEN);
    memset(cursor, 0, CURSOR_WORDS * sizeof *cursor);
    write_header(reply, FREE_CURSOR, 0);
    put32(reply + REPLY_CURSORS_REMAINING, open_cursor_count(seat));
    return served(FREE_REPLY);
}

/* "Disconnect (empty body) closes both cursors, leaves the seat unconnected
   and writes nothing." */
static struct peer_answer serve_disconnect(uint32_t *seat, size_t length)
{
    if (length != HEADER_BYTES)
        return refused(BODY_MALFORMED);
    memset(seat, 0, SEAT_WORDS * sizeof *seat);
    return served(0);
}

/* ------------------------------------------------------------------------ */
/* The calls                                                                */
/* ------------------------------------------------------------------------ */

/* Refusals 6 to 15 of a message, in order; no refusal has written or changed
   anything. */
static struct peer_answer serve_message(const struct catalogue *catalogue,
                                        uint32_t *seat, const uint8_t *message,
                                        size_t length, uint8_t *reply)
{
    uint32_t msg = get32(message + HEADER_MSG);
    if (!message_served(msg))
        return refused(MESSAGE_NOT_SERVED);
    if (!seat[SEAT_CONNECTED])
        return refused(CONNECTION);
    if (checksum_tested(msg, seat[SEAT_CLIENT_VERSION]) &&
        get32(message + HEADER_CHECKSUM) != checksum_of(message, length))
        return refused(CHECKSUM_WRONG);
    switch (msg) {
    case GET_ROWS:
        return serve_rows(catalogue, seat, message, length, reply);
    case SET_BINDINGS:
        return serve_bindings(seat, message, length, reply);
    case FREE_CURSOR:
        return serve_free_cursor(seat, message, length, reply);
    default:
        return serve_disconnect(seat, length);
    }
}

/* "connecting a connected seat" is refusal 7. */
uint32_t peer_connect(struct peer_lent lent, struct peer_seat seat,
                      uint32_t client_version)
{
    struct catalogue catalogue;
    uint32_t refusal = judge_lent(lent, seat, &catalogue);
    if (refusal)
        return refusal;
    uint32_t *block = seat_block(lent.table, seat);
    if (block[SEAT_CONNECTED])
        return CONNECTION;
    block[SEAT_CONNECTED] = 1;
    block[SEAT_CLIENT_VERSION] = client_version;
    return ACCEPTED;
}

/* "opening takes the lowest free handle, with position 0 and no bindings".
   A closed cursor is all zero, so only what differs is written. */
struct peer_opened peer_open(struct peer_lent lent, struct peer_seat seat,
                             const uint8_t *tree_bytes, size_t tree_length)
{
    struct catalogue catalogue;
    struct tree tree;
    struct peer_opened opened = {judge_lent(lent, seat, &catalogue), {0}};
    if (opened.refusal)
        return opened;
    uint32_t *block = seat_block(lent.table, seat);
    struct peer_handle handle = lowest_free_handle(block);
    if (!block[SEAT_CONNECTED])
        opened.refusal = CONNECTION;
    else if (handle.number == 0)
        opened.refusal = BOTH_HANDLES_OPEN;
    else if (!read_tree(tree_bytes, tree_length, &tree))
        opened.refusal = RESTRICTION_MALFORMED;
    if (opened.refusal)
        return opened;
    uint32_t *cursor = cursor_block(block, handle.number - 1);
    cursor[CURSOR_OPEN] = 1;
    cursor[CURSOR_SELECTED] =
        select_rows(&catalogue, &tree, cursor + CURSOR_ROW_NUMBERS);
    opened.handle = handle;
    return opened;
}

/* "From 6 on, where a message was sent, the reply is 16 bytes: _msg, the
   status, zero, zero." */
struct peer_answer peer_message(struct peer_lent lent, struct peer_seat seat,
                                const uint8_t *message, size_t message_length,
                                uint8_t *reply, size_t reply_room)
{
    struct catalogue catalogue;
    uint32_t refusal = judge_lent(lent, seat, &catalogue);
    if (refusal)
        return refused(refusal);
    if (reply_room < LEAST_REPLY_ROOM)
        return refused(REPLY_BUFFER_SMALL);
    if (!message_size_served(message_length))
        return refused(MESSAGE_SIZE);
    struct peer_answer answer =
        serve_message(&catalogue, seat_block(lent.table, seat), message,
                      message_length, reply);
    if (answer.refusal) {
        write_header(reply, get32(message + HEADER_MSG),
                     refusal_statuses[answer.refusal]);
        answer.count = HEADER_BYTES;
    }
    return answer;
}

uint32_t peer_catalogue_check(const uint8_t *catalogue, size_t length)
{
    struct catalogue read;
    return read_catalogue(catalogue, length, &read) ? ACCEPTED
                                                    : CATALOGUE_MALFORMED;
}

uint64_t peer_checksum(const uint8_t *message, size_t length)
{
    const uint64_t no_checksum = 4294967296;
    return message_size_served(length) ? checksum_of(message, length)
                                       : no_checksum;
}
