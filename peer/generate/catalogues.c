/*
 * Catalogues: words, numbers and units that lie near the limits of a form, the
 * rows made of them, and the bytes of the rows. A fault is made in the writing,
 * so that all else of the catalogue stays right.
 */
#include "catalogues.h"
#include "chance.h"
#include "lines.h"

/* ------------------------------------------------------------------------ */
/* Rows                                                                     */
/* ------------------------------------------------------------------------ */

struct contents contents;

static const char *const words[] = {
    "start", "starting", "restart", "re",  "a",  "aa", "aab",
    "ab",    "on",       "off",     "OK",  "O",  "x",  "no",
    "auto",  "automatic", "mode",   "set", "se", "s",  "start-up",
};

const char *any_word(void)
{
    return words[below(sizeof words / sizeof *words)];
}

uint32_t any_number(void)
{
    switch (below(6)) {
    case 0:
        return PICK(0, 1, 126, 127, 128, 129, 255, 256, 16383, 16384, 2097151,
                    2097152, 268435455, 268435456, 0x7FFFFFFF, 0x80000000,
                    0xFFFFFFFE, 0xFFFFFFFF);
    case 1:
        return any32();
    case 2:
        return 1000 + below(30);
    default:
        return below(12);
    }
}

uint16_t any_unit(void)
{
    if (percent(60))
        return (uint16_t)PICK('a', 'b', 's', ' ', ' ', 0x2000, 0x0120, 0x0100,
                              0x0001, 0x00FF, 0xFF00, 0xD800, 0xDC00, 0x8000,
                              0xFFFF, 0x2020, 0x7FFF);
    return (uint16_t)between(1, 0xFFFF);
}

static void add_unit(struct contents *rows, struct text *text, uint16_t unit)
{
    rows->pool[rows->pool_used++] = unit;
    text->units++;
}

static void add_words(struct contents *rows, struct text *text,
                      uint32_t most)
{
    uint32_t count = between(1, 5);
    if (percent(10))
        add_unit(rows, text, ' ');
    for (uint32_t number = 0; number < count; number++) {
        for (const char *c = any_word(); *c != '\0' && text->units < most; c++)
            add_unit(rows, text, (uint16_t)*c);
        bool last = number + 1 == count;
        if (text->units < most && (!last || percent(10)))
            add_unit(rows, text, percent(95) ? ' ' : any_unit());
        if (text->units < most && percent(8))
            add_unit(rows, text, ' ');
    }
}

/* Words until the text has exactly so many units. */
static void add_exactly(struct contents *rows, struct text *text,
                        uint32_t units)
{
    while (text->units < units) {
        for (const char *c = any_word(); *c != '\0' && text->units < units; c++)
            add_unit(rows, text, (uint16_t)*c);
        if (text->units < units)
            add_unit(rows, text, ' ');
    }
}

static struct text any_text(struct contents *rows, uint32_t most)
{
    struct text text = {true, rows->pool_used, 0};
    uint32_t share = below(100);
    if (share < 24)
        text.present = false;
    else if (share < 33)
        return text;
    else if (share < 78)
        add_words(rows, &text, most);
    else if (share < 88)
        for (uint32_t left = least_of(between(1, 12), most); left > 0; left--)
            add_unit(rows, &text, any_unit());
    else
        add_exactly(rows, &text,
                    least_of(percent(50) ? between(30, 260)
                                         : PICK(61, 62, 63, 64, 65, 126, 127,
                                                128, 227, 228, 483, 484, 1000,
                                                2047, 2048),
                             most));
    return text;
}

static uint32_t group_count(uint32_t number)
{
    uint32_t count = 1;
    for (; number >= 0x80; number >>= 7)
        count++;
    return count;
}

static uint32_t text_bytes(const struct text *text)
{
    return text->present ? group_count(text->units + 1) + 2 * text->units : 1;
}

static uint32_t row_bytes(const struct row *row)
{
    uint32_t bytes = text_bytes(&row->texts[0]) + text_bytes(&row->texts[1]);
    for (unsigned number = 0; number < 3; number++)
        bytes += group_count(row->numbers[number]);
    return bytes;
}

void make_rows(struct contents *rows, uint32_t row_count, uint32_t budget,
               uint32_t most_units)
{
    uint32_t bytes = 2;
    rows->row_count = 0;
    rows->pool_used = 0;
    while (rows->row_count < row_count) {
        struct row *row = &rows->rows[rows->row_count];
        for (unsigned number = 0; number < 3; number++)
            row->numbers[number] = any_number();
        if (percent(70))
            row->numbers[0] = rows->row_count;
        for (unsigned text = 0; text < 2; text++)
            row->texts[text] = any_text(rows, most_units);
        bytes += row_bytes(row);
        if (bytes > budget)
            return;
        rows->row_count++;
    }
}

/* So many rows, without texts. */
static void make_plain_rows(struct contents *rows, uint32_t row_count)
{
    rows->row_count = row_count;
    rows->pool_used = 0;
    memset(rows->rows, 0, sizeof rows->rows);
    for (uint32_t number = 0; number < row_count; number++) {
        rows->rows[number].numbers[0] = number;
        rows->rows[number].numbers[1] = below(3);
        rows->rows[number].numbers[2] = below(5);
    }
}

/* Exactly 32,768 bytes: 1 of row count, three rows of 8,199, and one of 8,170
   with a key of two groups. */
static void make_longest(struct contents *rows)
{
    make_plain_rows(rows, 4);
    rows->rows[3].numbers[0] = 128;
    for (uint32_t text = 0; text < 8; text++) {
        struct text *now = &rows->rows[text / 2].texts[text % 2];
        *now = (struct text){true, rows->pool_used, 0};
        add_exactly(rows, now, text < 7 ? 2048 : 2033);
    }
}

void make_catalogue(struct contents *rows)
{
    if (percent(2)) {
        make_longest(rows);
        return;
    }
    switch (below(20)) {
    case 0:
        make_rows(rows, between(0, 1), 200, 20);
        break;
    case 1:
        make_rows(rows, between(1, 3), 9000, 2048);
        break;
    case 2:
        make_rows(rows, between(60, 200), 4000, 30);
        break;
    case 3:
        if (percent(40))
            make_plain_rows(rows, percent(50) ? 1024 : between(200, 1023));
        else if (percent(50))
            make_rows(rows, 1024, MOST_CATALOGUE, percent(50) ? 6 : 2048);
        else
            make_rows(rows, 1024, 12000, percent(50) ? 6 : 2048);
        break;
    case 4:
    case 5:
    case 6:
        make_rows(rows, between(12, 40), 2500, 260);
        break;
    default:
        make_rows(rows, between(2, 16), 1500, 260);
    }
}

/* ------------------------------------------------------------------------ */
/* Bytes                                                                    */
/* ------------------------------------------------------------------------ */

struct part catalogue_part;

/* One fault in the writing of a catalogue, at the number or unit so many from
   the first. */
struct catalogue_fault {
    enum {
        NO_FAULT,
        LONG_FORM,
        OVER_32_BITS,
        SIX_GROUPS,
        ONE_MORE,
        ONE_LESS,
        ZERO_UNIT
    } kind;
    uint32_t at;
};

static void add_groups(struct part *part, uint32_t number)
{
    for (; number >= 0x80; number >>= 7)
        add8(part, (number & 0x7F) | 0x80);
    add8(part, number);
}

static void add_wrong_groups(struct part *part, uint32_t number,
                             const struct catalogue_fault *fault)
{
    static const uint8_t over[][5] = {{0xFF, 0xFF, 0xFF, 0xFF, 0x1F},
                                      {0x80, 0x80, 0x80, 0x80, 0x10},
                                      {0xFF, 0xFF, 0xFF, 0xFF, 0x7F}};
    switch (fault->kind) {
    case LONG_FORM:
        add_groups(part, number);
        part->bytes[part->length - 1] |= 0x80;
        add8(part, 0x00);
        break;
    case OVER_32_BITS: {
        const uint8_t *groups = over[below(3)];
        for (unsigned group = 0; group < 5; group++)
            add8(part, groups[group]);
        break;
    }
    case SIX_GROUPS:
        for (unsigned group = 0; group < 5; group++)
            add8(part, PICK(0x80, 0x81, 0x8F, 0xFF));
        add8(part, below(2));
        break;
    default:
        add_groups(part, fault->kind == ONE_MORE ? number + 1 : number - 1);
    }
}

static struct part *write_catalogue(const struct contents *rows,
                                    struct catalogue_fault fault)
{
    struct part *part = &catalogue_part;
    uint32_t number_at = 0, unit_at = 0;
    clear(part);
#define ADD_NUMBER(number)                                                     \
    do {                                                                       \
        if (number_at++ == fault.at && fault.kind != NO_FAULT &&               \
            fault.kind != ZERO_UNIT)                                           \
            add_wrong_groups(part, number, &fault);                            \
        else                                                                   \
            add_groups(part, number);                                          \
    } while (0)
    ADD_NUMBER(rows->row_count);
    for (uint32_t row = 0; row < rows->row_count; row++) {
        for (unsigned number = 0; number < 3; number++)
            ADD_NUMBER(rows->rows[row].numbers[number]);
        for (unsigned which = 0; which < 2; which++) {
            const struct text *text = &rows->rows[row].texts[which];
            ADD_NUMBER(text->present ? text->units + 1 : 0);
            for (uint32_t unit = 0; unit < text->units; unit++)
                add16(part, fault.kind == ZERO_UNIT && unit_at++ == fault.at
                                ? 0
                                : rows->pool[text->first + unit]);
        }
    }
#undef ADD_NUMBER
    return part;
}

static struct part *write_good_catalogue(const struct contents *rows)
{
    return write_catalogue(rows, (struct catalogue_fault){NO_FAULT, 0});
}

void lend_contents(void)
{
    const struct part *part = write_good_catalogue(&contents);
    call_catalogue(part->bytes, part->length);
}

void lend_again(void)
{
    lend_contents();
    if (state_refusal() != 3)
        return;
    make_plain_rows(&contents, PEER_ROWS);
    lend_contents();
}

/* ------------------------------------------------------------------------ */
/* Faults                                                                   */
/* ------------------------------------------------------------------------ */

static uint32_t contents_units(void)
{
    uint32_t units = 0;
    for (uint32_t row = 0; row < contents.row_count; row++)
        units += contents.rows[row].texts[0].units +
                 contents.rows[row].texts[1].units;
    return units;
}

void make_damaged_catalogue(void)
{
    uint32_t numbers = 1 + 5 * contents.row_count, units = contents_units();
    struct catalogue_fault fault = {NO_FAULT, 0};
    switch (below(14)) {
    case 0:
        fault.kind = LONG_FORM;
        break;
    case 1:
        fault.kind = OVER_32_BITS;
        break;
    case 2:
        fault.kind = SIX_GROUPS;
        break;
    case 3:
        fault.kind = percent(50) ? ONE_MORE : ONE_LESS;
        break;
    case 4:
    case 5:
    case 6:
    case 7:
        if (units > 0)
            fault.kind = ZERO_UNIT;
        break;
    default:
        break;
    }
    if (fault.kind == ZERO_UNIT)
        fault.at = below(units);
    else if (fault.kind != NO_FAULT)
        fault.at = percent(20) ? 0 : below(numbers);
    struct part *part = write_catalogue(&contents, fault);
    if (fault.kind != NO_FAULT)
        return;
    switch (below(5)) {
    case 0:
        cut(part, between(1, 4));
        break;
    case 1:
        cut(part, between(1, (uint32_t)part->length));
        break;
    case 2:
        add8(part, percent(70) ? 0 : any32());
        break;
    case 3:
        flip_bit(part);
        break;
    default:
        part->length = 0;
    }
}

void make_excessive_catalogue(void)
{
    static struct contents excessive;
    excessive = contents;
    if (percent(40) || excessive.row_count == 0) {
        make_plain_rows(&excessive, PEER_ROWS + 1);
    } else {
        uint32_t row = below(excessive.row_count);
        struct text *text = &excessive.rows[row].texts[below(2)];
        *text = (struct text){true, excessive.pool_used, 0};
        add_exactly(&excessive, text, nearest_or(2049, between(2050, 2051)));
    }
    (void)write_good_catalogue(&excessive);
}
