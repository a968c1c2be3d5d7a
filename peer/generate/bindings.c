/*
 * Bindings: columns whose spans mostly touch, so that one byte more is one too
 * many, and the faults of their plan and of their message.
 */
#include "bindings.h"
#include "chance.h"
#include "requests.h"

/* ------------------------------------------------------------------------ */
/* The plan                                                                 */
/* ------------------------------------------------------------------------ */

struct bindings bindings;

/* One span of a column: where its offset is kept, and its size. */
struct plan_span {
    uint32_t *offset;
    uint32_t size;
};

/* The used spans of the plan, five columns at most. */
static uint32_t list_spans(struct plan_span *spans)
{
    uint32_t count = 0;
    for (uint32_t at = 0; at < least_of(bindings.column_count, 5); at++) {
        struct plan_column *column = &bindings.columns[at];
        if (column->value_used)
            spans[count++] = (struct plan_span){&column->value_offset,
                                                column->value_size};
        if (column->status_used)
            spans[count++] = (struct plan_span){&column->status_offset, 1};
        if (column->length_used)
            spans[count++] = (struct plan_span){&column->length_offset, 4};
    }
    return count;
}

uint32_t lay_out(void)
{
    struct plan_span spans[15];
    uint32_t count = list_spans(spans), end = 0;
    bool dense = percent(60);
    while (count > 0) {
        uint32_t which = below(count);
        if (!dense)
            end += PICK(0, 0, 1, 2, 3, 5, 12);
        *spans[which].offset = end;
        end += spans[which].size;
        spans[which] = spans[--count];
    }
    return end;
}

static void plan_column(struct plan_column *column, uint32_t property)
{
    bool number = property <= 4;
    column->property = property;
    column->type = number && percent(50) ? TYPE_NUMBER : TYPE_CELL;
    column->value_used = percent(80);
    column->value_size = column->type == TYPE_CELL ? 16 : 4;
    column->status_used = percent(50);
    column->length_used = percent(50);
}

void plan_bindings(uint32_t handle)
{
    uint32_t properties[5] = {2, 3, 4, 5, 6}, left = 5;
    bindings.handle = handle;
    bindings.column_count = percent(20) ? 5 : between(1, 3);
    for (uint32_t at = 0; at < bindings.column_count; at++) {
        uint32_t which = percent(30) ? left - 1 : below(left);
        plan_column(&bindings.columns[at], properties[which]);
        properties[which] = properties[--left];
    }
    bindings.width = lay_out();
    if (bindings.width == 0 || percent(30))
        bindings.width += between(1, 40);
    if (percent(2))
        bindings.width = 4096;
}

/* ------------------------------------------------------------------------ */
/* The message                                                              */
/* ------------------------------------------------------------------------ */

static void add_offset(uint32_t offset)
{
    add_padding(&message, 2);
    add16(&message, offset);
}

static void add_flag(uint32_t flag)
{
    mark(&message, ROLE_FLAG);
    add8(&message, flag);
}

static void add_column(const struct plan_column *column)
{
    add_property(&message, column->property);
    add32(&message, column->type);
    add_flag(column->value_used);
    if (column->value_used) {
        add_offset(column->value_offset);
        add16(&message, column->value_size);
    }
    add_flag(column->status_used);
    if (column->status_used)
        add_offset(column->status_offset);
    add_flag(column->length_used);
    if (column->length_used)
        add_offset(column->length_offset);
}

enum { DESC_PLACE = 24, COLUMNS_PLACE = 32 };

void set_desc(void)
{
    if (message.length >= 28)
        set32(&message, DESC_PLACE, (uint32_t)message.length - 32);
}

void make_bindings(void)
{
    begin_message(SET_BINDINGS);
    add32(&message, bindings.handle);
    add32(&message, bindings.width);
    add32(&message, 0);
    add32(&message, percent(70) ? 0 : any32());
    mark(&message, ROLE_COUNT);
    add32(&message, bindings.column_count);
    for (uint32_t at = 0; at < bindings.column_count; at++) {
        add_padding(&message, 4);
        add_column(&bindings.columns[at]);
    }
    set_desc();
}

/* ------------------------------------------------------------------------ */
/* Bindings that are unfit                                                  */
/* ------------------------------------------------------------------------ */

/* Two spans of the plan share a byte, if it has two; otherwise one is past the
   row. */
static void make_spans_meet(void)
{
    struct plan_span spans[15];
    uint32_t count = list_spans(spans);
    if (count < 2) {
        bindings.width = 0;
        return;
    }
    uint32_t one = below(count), other = (one + between(1, count - 1)) % count;
    *spans[one].offset = *spans[other].offset + spans[other].size - 1;
    bindings.width = 4096;
}

static void move_span_past_row(void)
{
    struct plan_span spans[15];
    uint32_t count = list_spans(spans);
    if (count == 0) {
        bindings.width = 4097;
        return;
    }
    uint32_t which = below(count);
    *spans[which].offset =
        PICK(bindings.width - spans[which].size + 1, bindings.width, 0xFFFF,
             0xFFF0);
}

void plan_many_columns(uint32_t count)
{
    for (; bindings.column_count < count; bindings.column_count++) {
        struct plan_column *column = &bindings.columns[bindings.column_count];
        memset(column, 0, sizeof *column);
        column->property = between(2, 6);
        column->type = TYPE_CELL;
        if (count < 20) {
            column->status_used = below(2);
            column->status_offset = 4000 + bindings.column_count;
        }
    }
}

void make_unfit_bindings(uint32_t handle)
{
    plan_bindings(handle);
    struct plan_column *column =
        &bindings.columns[below(bindings.column_count)];
    bool foreign_set = false;
    switch (below(16)) {
    case 0:
        bindings.column_count = 0;
        break;
    case 1:
        plan_many_columns(between(6, 9));
        break;
    case 2:
        plan_many_columns(PICK(6, 60, 509));
        break;
    case 3:
        bindings.width = nearest_or(4097, PICK(0, 4098, 65535,
                                               0x00010000 + bindings.width,
                                               0xFFFFFFFF));
        break;
    case 14:
        bindings.column_count = 1;
        column = &bindings.columns[0];
        column->value_used = column->status_used = column->length_used = 0;
        bindings.width = nearest_or(0, 4097);
        break;
    case 4:
        bindings.width = lay_out();
        if (bindings.width > 0)
            bindings.width--;
        break;
    case 5:
        column->property =
            PICK(0, 1, 7, 8, column->property + 0x00010000, 0xFFFFFFFF);
        break;
    case 6:
        foreign_set = true;
        break;
    case 7:
        if (bindings.column_count == 1)
            bindings.columns[bindings.column_count++] = bindings.columns[0];
        bindings.columns[1].property = bindings.columns[0].property;
        bindings.width = lay_out() + 1;
        break;
    case 8:
        column->type = PICK(0, 0x0003, 0x000D, 0x0012, 0x0014, 0x0015, 0x001F,
                            0x100C, 0x1013, 0x0001000C, 0x00010013);
        break;
    case 9:
    case 15:
        column = &bindings.columns[0];
        if (column->property < 5) {
            bindings.column_count = 1;
            column->property = between(5, 6);
        }
        column->type = TYPE_NUMBER;
        column->value_size = 4;
        break;
    case 10:
        column->value_used = 1;
        column->value_size = PICK(0, 1, 3, 5, 8, 15, 17,
                                  column->type == TYPE_CELL ? 4 : 16, 0x0110);
        bindings.width = lay_out() + 20;
        break;
    case 11:
        move_span_past_row();
        break;
    default:
        make_spans_meet();
    }
    make_bindings();
    if (foreign_set)
        damage_set(&message, find_mark(&message, ROLE_SET));
}

/* ------------------------------------------------------------------------ */
/* Bindings that are malformed                                              */
/* ------------------------------------------------------------------------ */

/* The part's mark of this role gets a wrong byte; where it has none, its last
   byte is cut off. */
static void damage_byte(enum role role, uint8_t value)
{
    long place = find_mark(&message, role);
    if (place < 0)
        cut(&message, 1);
    else
        message.bytes[place] = value;
}

/* A used flag of neither 0 nor 1, mostly where it was 1: so nothing else of
   the body is wrong. Every column has three flags. */
static void damage_flag(void)
{
    long place = find_mark(&message, ROLE_FLAG);
    for (uint32_t tries = 0; tries < 5; tries++)
        if (message.bytes[place] != 1)
            place = find_mark(&message, ROLE_FLAG);
    message.bytes[place] = (uint8_t)nearest_or(2, PICK(3, 0x80, 0xFF));
}

void make_malformed_bindings(uint32_t handle)
{
    plan_bindings(handle);
    if (percent(50) && bindings.column_count == 1) {
        bindings.column_count = 2;
        plan_column(&bindings.columns[1],
                    bindings.columns[0].property == 5 ? 6 : 5);
        bindings.width = lay_out() + 1;
    }
    make_bindings();
    bool describe = percent(85);
    switch (below(11)) {
    case 0:
        cut(&message, between(1, 3));
        break;
    case 1:
        cut_at_mark(&message);
        break;
    case 9:
        message.length = 16 + below(21);
        break;
    case 2:
        for (uint32_t more = between(1, 4); more > 0; more--)
            add8(&message, percent(70) ? 0 : any32());
        break;
    case 3:
    case 4:
        damage_byte(ROLE_PADDING, (uint8_t)between(1, 255));
        break;
    case 5:
    case 10:
        damage_flag();
        break;
    case 6:
        set32(&message, DESC_PLACE,
              get32(&message, DESC_PLACE) + PICK(1, ~0u, 4, ~3u, 0x00010000));
        describe = false;
        break;
    case 7:
        damage_byte(ROLE_KIND, (uint8_t)PICK(0, 2, 3));
        break;
    default:
        set32(&message, COLUMNS_PLACE,
              PICK(bindings.column_count + 1, bindings.column_count - 1,
                   0xFFFFFFFF, bindings.column_count + 0x00010000));
    }
    if (describe)
        set_desc();
}
