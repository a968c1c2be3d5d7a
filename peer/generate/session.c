/*
 * The session's state, and the steps that lead to one. Where the table already
 * has what is needed, it is mostly taken: so sessions grow long, and cursors
 * are used again.
 */
#include "session.h"
#include "bindings.h"
#include "chance.h"
#include "lines.h"
#include "requests.h"
#include "trees.h"

/* ------------------------------------------------------------------------ */
/* The session's state                                                      */
/* ------------------------------------------------------------------------ */

uint32_t seat_word(uint32_t seat)
{
    return seat * SEAT_WORDS;
}

uint32_t cursor_word(struct place at)
{
    return seat_word(at.seat) + SEAT_CURSORS + (at.handle - 1) * CURSOR_WORDS;
}

const uint32_t *cursor_of(struct place at)
{
    return table + cursor_word(at);
}

bool is_connected(uint32_t seat)
{
    return table[seat_word(seat)] == 1;
}

bool is_open(struct place at)
{
    return cursor_of(at)[CURSOR_OPEN] == 1;
}

bool is_closed(struct place at)
{
    return is_connected(at.seat) && !is_open(at);
}

bool is_bound(struct place at)
{
    return is_open(at) && cursor_of(at)[CURSOR_COLUMN_COUNT] > 0;
}

static bool is_unbound(struct place at)
{
    return is_open(at) && cursor_of(at)[CURSOR_COLUMN_COUNT] == 0;
}

uint32_t remaining(struct place at)
{
    const uint32_t *cursor = cursor_of(at);
    return cursor[CURSOR_SELECTED] - cursor[CURSOR_POSITION];
}

bool has_rows(struct place at)
{
    return is_open(at) && remaining(at) > 0;
}

bool is_bound_with_rows(struct place at)
{
    return is_bound(at) && remaining(at) > 0;
}

bool find_cursor(bool (*accepts)(struct place), struct place *found)
{
    uint32_t seen = 0;
    *found = (struct place){0, 1};
    for (uint32_t seat = 0; seat < PEER_SEATS; seat++)
        for (uint32_t handle = 1; handle <= PEER_CURSORS; handle++) {
            struct place at = {seat, handle};
            if (accepts(at) && below(++seen) == 0)
                *found = at;
        }
    return seen > 0;
}

uint32_t find_seat(bool connected)
{
    uint32_t seen = 0, found = PEER_SEATS;
    for (uint32_t seat = 0; seat < PEER_SEATS; seat++)
        if (is_connected(seat) == connected && below(++seen) == 0)
            found = seat;
    return found;
}

uint32_t any_version(void)
{
    if (percent(70))
        return below(11);
    return PICK(5, 8, 0x00010008, 0x00010007, 0x7FFFFFFF, 0x80000000,
                0x80000007, 0xFFFFFFFF);
}

/* ------------------------------------------------------------------------ */
/* Steps that lead to a state                                               */
/* ------------------------------------------------------------------------ */

void free_cursor(struct place at)
{
    make_free(at.handle);
    (void)send_to(at.seat);
}

uint32_t connect_a_seat(void)
{
    uint32_t seat = find_seat(false);
    (void)call_connect(seat, any_version());
    return seat;
}

uint32_t need_connected(void)
{
    uint32_t seat = find_seat(true);
    return seat < PEER_SEATS ? seat : connect_a_seat();
}

struct place need_closed(void)
{
    struct place at;
    if (find_cursor(is_closed, &at) && percent(80)) {
        if (at.handle == 2 && is_closed((struct place){at.seat, 1}))
            at.handle = 1;
        return at;
    }
    if (find_seat(false) < PEER_SEATS)
        return (struct place){connect_a_seat(), 1};
    at.seat = below(PEER_SEATS);
    at.handle = between(1, 2);
    if (is_open(at))
        free_cursor(at);
    if (at.handle == 2 && is_closed((struct place){at.seat, 1}))
        at.handle = 1;
    return at;
}

struct place open_a_cursor(void)
{
    struct place at = need_closed();
    if (percent(75))
        make_broad_tree();
    else
        make_any_tree();
    (void)call_open(at.seat, tree.bytes, tree.length);
    return at;
}

struct place need_open(void)
{
    struct place at;
    if (find_cursor(is_open, &at) && percent(90))
        return at;
    return open_a_cursor();
}

struct place need_unbound(void)
{
    struct place at;
    if (find_cursor(is_unbound, &at))
        return at;
    return open_a_cursor();
}

struct place need_rows(void)
{
    struct place at;
    if (find_cursor(has_rows, &at) && percent(90))
        return at;
    at = need_closed();
    clear(&tree);
    add_relation(3, between(2, 4), 0);
    (void)call_open(at.seat, tree.bytes, tree.length);
    return at;
}

void bind_cursor(struct place at)
{
    plan_bindings(at.handle);
    make_bindings();
    (void)send_to(at.seat);
}

struct place need_bound(void)
{
    struct place at;
    if (find_cursor(is_bound_with_rows, &at) && percent(80))
        return at;
    if (find_cursor(is_bound, &at) && percent(30))
        return at;
    at = need_rows();
    bind_cursor(at);
    return at;
}

void plan_page(struct place at)
{
    plan_rows(at.handle, cursor_of(at)[CURSOR_ROW_WIDTH]);
}
