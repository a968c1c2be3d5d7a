/*
 * Scenes of refusals 1 to 5: the seat, the table, the catalogue, the reply's
 * room and the message's size. What these scenes damage they set back, so that
 * the session goes on after them.
 */
#include "scenes.h"
#include "bindings.h"
#include "catalogues.h"
#include "chance.h"
#include "lines.h"
#include "requests.h"
#include "session.h"
#include "trees.h"

/* ------------------------------------------------------------------------ */
/* Any call at all                                                          */
/* ------------------------------------------------------------------------ */

/* A call that doesn't look at the state: what a damaged table or catalogue
   must refuse. */
static void any_call(void)
{
    uint32_t seat = percent(95) ? below(PEER_SEATS) : PICK(8, 9, 0xFFFFFFFF);
    struct place at = {seat % PEER_SEATS, between(1, 2)};
    switch (below(7)) {
    case 0:
        (void)call_connect(seat, any_version());
        return;
    case 1:
        make_broad_tree();
        (void)call_open(seat, tree.bytes, tree.length);
        return;
    case 2:
        plan_bindings(at.handle);
        make_bindings();
        break;
    case 3:
        make_free(at.handle);
        break;
    case 4:
        make_disconnect();
        break;
    default:
        plan_page(at);
        make_rows_message();
    }
    if (percent(5))
        cut(&message, between(1, (uint32_t)message.length));
    seal_for(at.seat);
    (void)call_message(seat, percent(95) ? USUAL_ROOM : below(USUAL_ROOM),
                       message.bytes, message.length);
}

void any_calls(void)
{
    any_call();
    if (percent(40))
        any_call();
}

/* ------------------------------------------------------------------------ */
/* Refusals 1 and 2: the seat and the table                                 */
/* ------------------------------------------------------------------------ */

void scene_seat_above_7(void)
{
    uint32_t seat = PICK(8, 9, 15, 16, 255, 256, 0x80000000, 0xFFFFFFFF);
    switch (below(3)) {
    case 0:
        (void)call_connect(seat, any_version());
        break;
    case 1:
        make_broad_tree();
        (void)call_open(seat, tree.bytes, tree.length);
        break;
    default:
        make_free(1);
        if (percent(20))
            message.length = below(16);
        (void)call_message(seat, percent(80) ? USUAL_ROOM : 0, message.bytes,
                           message.length);
    }
}

/* Sets a word wrong, makes a call or two, and sets it back if calls are now
   refused. Where they are not, the table is as good as before. */
static void damage_word(uint32_t index, uint32_t value)
{
    uint32_t kept = table[index];
    call_word(index, value);
    any_calls();
    if (state_refusal() != 4)
        call_word(index, kept);
}

/* A word that is not in use: of a closed cursor, or of an unconnected seat. */
static void damage_unused(void)
{
    struct place at;
    uint32_t seat = find_seat(false);
    uint32_t value = PICK(1, 2, 1024, 0x80000000, 0xFFFFFFFF);
    if (seat < PEER_SEATS && percent(50))
        damage_word(seat_word(seat) + PICK(1, 1, 2, 3, 52, 1076, 2149, 2149,
                                           between(1, SEAT_WORDS - 1)),
                    value);
    else if (find_cursor(is_closed, &at))
        damage_word(cursor_word(at) + PICK(1, 2, 3, 4, 5, 50, 1073, 1073,
                                           between(1, CURSOR_WORDS - 1)),
                    value);
}

static void damage_cursor_head(struct place at)
{
    uint32_t base = cursor_word(at);
    const uint32_t *cursor = cursor_of(at);
    uint32_t which = below(5), now = cursor[which];
    switch (which) {
    case CURSOR_OPEN:
        damage_word(base, PICK(0, 2, 0x00010001, 0xFFFFFFFF));
        break;
    case CURSOR_POSITION:
        damage_word(base + which, cursor[CURSOR_SELECTED] +
                                      PICK(1, 1, 2, 1000, 0x80000000));
        break;
    case CURSOR_SELECTED:
        damage_word(base + which,
                    PICK(now + 1, now + 1, now - 1, now - 1, 0, 1024, 1025,
                         0x00010000 + now, 0xFFFFFFFF));
        break;
    case CURSOR_COLUMN_COUNT:
        damage_word(base + which, PICK(now + 1, now + 1, now - 1, now - 1, 0,
                                       5, 6, 7, 0xFFFFFFFF));
        break;
    default:
        damage_word(base + which, PICK(0, 1, now - 1, now + 1, 4096, 4097,
                                       0x00010000 + now, 0xFFFFFFFF));
    }
}

/* An offset or a size under a flag that isn't set. */
static void damage_unset(struct place at)
{
    static const uint32_t under[][2] = {
        {COLUMN_VALUE_USED, COLUMN_VALUE_OFFSET},
        {COLUMN_VALUE_USED, COLUMN_VALUE_SIZE},
        {COLUMN_STATUS_USED, COLUMN_STATUS_OFFSET},
        {COLUMN_LENGTH_USED, COLUMN_LENGTH_OFFSET},
    };
    uint32_t first = cursor_word(at) + CURSOR_COLUMNS;
    uint32_t found = 0, seen = 0;
    for (uint32_t number = 0; number < cursor_of(at)[CURSOR_COLUMN_COUNT];
         number++, first += COLUMN_WORDS)
        for (unsigned which = 0; which < 4; which++)
            if (table[first + under[which][0]] == 0 && below(++seen) == 0)
                found = first + under[which][1];
    if (seen > 0)
        damage_word(found, PICK(1, 4, 16, 100, 0xFFFFFFFF));
}

/* A used span: its flag becomes 2, or its offset one whose end wraps to 0 or a
   little more. */
static void damage_used(struct place at)
{
    static const uint32_t spans[][3] = {
        {COLUMN_VALUE_USED, COLUMN_VALUE_OFFSET, 16},
        {COLUMN_STATUS_USED, COLUMN_STATUS_OFFSET, 1},
        {COLUMN_LENGTH_USED, COLUMN_LENGTH_OFFSET, 4},
    };
    uint32_t first = cursor_word(at) + CURSOR_COLUMNS;
    uint32_t column = 0, span = 0, seen = 0;
    for (uint32_t number = 0; number < cursor_of(at)[CURSOR_COLUMN_COUNT];
         number++, first += COLUMN_WORDS)
        for (unsigned which = 0; which < 3; which++)
            if (table[first + spans[which][0]] == 1 && below(++seen) == 0) {
                column = first;
                span = which;
            }
    if (seen == 0)
        return;
    if (percent(50))
        damage_word(column + spans[span][0], nearest_or(2, 0xFFFFFFFF));
    else
        damage_word(column + spans[span][1],
                    nearest_or(0 - spans[span][2], 0xFFFFFFFF));
}

static bool has_five_columns(struct place at)
{
    return is_open(at) && cursor_of(at)[CURSOR_COLUMN_COUNT] == 5;
}

static void damage_column(struct place at)
{
    uint32_t count = cursor_of(at)[CURSOR_COLUMN_COUNT];
    uint32_t number = percent(85) && count > 0 ? below(count) : below(5);
    uint32_t which = below(COLUMN_WORDS);
    uint32_t index =
        cursor_word(at) + CURSOR_COLUMNS + number * COLUMN_WORDS + which;
    uint32_t now = table[index];
    switch (which) {
    case COLUMN_PROPERTY:
        damage_word(index, PICK(0, 1, 2, 3, 4, 5, 6, 7, now + 0x00010000));
        break;
    case COLUMN_TYPE:
        damage_word(index, PICK(0, TYPE_CELL, TYPE_NUMBER, 0x001F,
                                now + 0x00010000, 0xFFFFFFFF));
        break;
    case COLUMN_VALUE_USED:
    case COLUMN_STATUS_USED:
    case COLUMN_LENGTH_USED:
        damage_word(index,
                    nearest_or(2, PICK(1 - now, 0x00010001, 0xFFFFFFFF)));
        break;
    case COLUMN_VALUE_SIZE:
        damage_word(index, PICK(0, 1, 4, 16, now + 1, 0x00010000 + now));
        break;
    default:
        damage_word(index, PICK(0, 1, now + 1, now - 1, 4095, 4096, 0xFFFFFFF0,
                                0xFFFFFFFC, 0xFFFFFFFF, 0x00010000 + now));
    }
}

static void damage_row_number(struct place at)
{
    const uint32_t *cursor = cursor_of(at);
    uint32_t first = cursor_word(at) + CURSOR_ROW_NUMBERS;
    uint32_t selected = cursor[CURSOR_SELECTED];
    if (selected == 0 || percent(20)) {
        if (selected == PEER_ROWS)
            return;
        uint32_t past = selected;
        if (percent(50))
            past = between(selected, PEER_ROWS - 1);
        damage_word(first + past,
                    PICK(1, PEER_ROWS - 1, PEER_ROWS, 0xFFFFFFFF));
        return;
    }
    uint32_t last = first + selected - 1;
    if (percent(50)) {
        damage_word(last, PICK(contents.row_count, contents.row_count + 1,
                               PEER_ROWS, PEER_ROWS + 1, 0x80000000,
                               0xFFFFFFFF));
        return;
    }
    uint32_t index = first + below(selected);
    uint32_t beside = index > first ? table[index - 1]
                      : selected > 1 ? table[index + 1]
                                     : 0;
    damage_word(index,
                nearest_or(beside, PICK(beside - 1, beside + 1, 0, 0xFFFFFFFF,
                                        table[last], table[last] + 1)));
}

static void damage_table(void)
{
    struct place at;
    uint32_t seat = need_connected(), index;
    switch (below(15)) {
    case 0:
        damage_word(seat_word(seat), PICK(0, 2, 3, 0x00010001, 0xFFFFFFFF));
        break;
    case 1:
    case 2:
        damage_unused();
        break;
    case 3:
        index = below(PEER_TABLE_WORDS);
        damage_word(index, PICK(0, 1, 2, 5, 1023, 1024, any32()));
        break;
    case 4:
    case 5:
        at = need_open();
        damage_cursor_head(at);
        break;
    case 6:
    case 7:
        at = need_bound();
        damage_column(at);
        break;
    case 8:
    case 9:
        at = need_bound();
        damage_unset(at);
        break;
    case 10:
    case 11:
        at = need_bound();
        damage_used(at);
        break;
    case 12:
        if (find_cursor(has_five_columns, &at))
            damage_word(cursor_word(at) + CURSOR_COLUMN_COUNT,
                        nearest_or(6, 0xFFFFFFFF));
        break;
    default:
        at = need_open();
        damage_row_number(at);
    }
}

void scene_table_fault(void)
{
    for (uint32_t faults = between(1, 3); faults > 0; faults--)
        damage_table();
}

/* Words of the table's two ends, set to what they are. */
void scene_same_word(void)
{
    uint32_t index = percent(50) ? PICK(0, PEER_TABLE_WORDS - 1)
                                 : below(PEER_TABLE_WORDS);
    call_word(index, table[index]);
    any_call();
}

/* ------------------------------------------------------------------------ */
/* Refusal 3: the catalogue                                                 */
/* ------------------------------------------------------------------------ */

/* A row number at or above the row count. */
void scene_row_number_fault(void)
{
    struct place at = need_rows();
    uint32_t selected = cursor_of(at)[CURSOR_SELECTED];
    if (selected > 0)
        damage_word(cursor_word(at) + CURSOR_ROW_NUMBERS + selected - 1,
                    PICK(contents.row_count, contents.row_count,
                         contents.row_count + 1, PEER_ROWS, 0xFFFFFFFF));
}

void scene_catalogue_fault(void)
{
    if (percent(15))
        make_excessive_catalogue();
    else
        make_damaged_catalogue();
    if (catalogue_part.length > MOST_CATALOGUE)
        return;
    call_catalogue(catalogue_part.bytes, catalogue_part.length);
    any_calls();
    lend_again();
}

/* A good catalogue with too few rows for the open cursors. */
void scene_shorter_catalogue(void)
{
    struct place at = need_rows();
    if (!has_rows(at) || contents.row_count == 0)
        return;
    uint32_t kept = contents.row_count;
    contents.row_count = percent(60) ? kept - 1 : below(kept);
    lend_contents();
    any_calls();
    contents.row_count = kept;
    lend_again();
}

/* A table and a catalogue that are wrong together. */
void scene_both_wrong(void)
{
    uint32_t index = below(PEER_TABLE_WORDS), kept = table[index];
    make_damaged_catalogue();
    if (catalogue_part.length > MOST_CATALOGUE)
        return;
    call_catalogue(catalogue_part.bytes, catalogue_part.length);
    call_word(index, kept == 0 ? 1024 : 0);
    any_calls();
    if (state_refusal() != 4)
        call_word(index, kept);
    any_call();
    lend_again();
}

/* ------------------------------------------------------------------------ */
/* Refusals 4 and 5: the reply's room and the message's size                */
/* ------------------------------------------------------------------------ */

void scene_room(void)
{
    struct place at = need_bound();
    plan_page(at);
    make_rows_message();
    if (percent(20))
        make_free(at.handle);
    seal_for(at.seat);
    if (percent(15))
        message.length = below(16);
    (void)call_message(at.seat, PICK(0, 0, 1, 15, 16, 512, 16382, 16383, 16383),
                       message.bytes, message.length);
}

void scene_room_edge(void)
{
    struct place at = need_bound();
    plan_page(at);
    make_rows_message();
    seal_for(at.seat);
    (void)call_message(at.seat, PICK(16383, 16384, 16385, 20000), message.bytes,
                       message.length);
}

void scene_size(void)
{
    struct place at = need_bound();
    plan_page(at);
    make_rows_message();
    if (percent(60)) {
        message.length = percent(30) ? 15 : below(16);
    } else {
        uint32_t length = PICK(16385, 16386, 17000);
        if (percent(10))
            length = MOST_BYTES;
        while (message.length < length)
            add8(&message, 0);
    }
    (void)send_to(at.seat);
}

/* The longest message that is read: what else is wrong with it decides. */
void scene_longest_message(void)
{
    struct place at = need_bound();
    switch (below(3)) {
    case 0:
        make_free(at.handle);
        break;
    case 1:
        plan_page(at);
        make_rows_message();
        break;
    default:
        plan_bindings(at.handle);
        plan_many_columns(509);
        make_bindings();
    }
    while (message.length < 16384)
        add8(&message, 0);
    message.length = 16384;
    if (get32(&message, 0) == SET_BINDINGS)
        set_desc();
    (void)send_to(at.seat);
}
