/*
 * Scenes of plain sessions, which are served: every form of tree, pages of any
 * cursor between those of others, and pages that fill their buffer to the byte.
 */
#include "scenes.h"
#include "bindings.h"
#include "catalogues.h"
#include "chance.h"
#include "lines.h"
#include "requests.h"
#include "session.h"
#include "trees.h"

static bool is_at_end(struct place at)
{
    return is_bound(at) && remaining(at) == 0;
}

static uint32_t fetch(struct place at)
{
    plan_page(at);
    make_rows_message();
    return send_to(at.seat);
}

void scene_connect(void)
{
    if (find_seat(false) < PEER_SEATS)
        (void)connect_a_seat();
}

void scene_open(void)
{
    struct place at = open_a_cursor();
    if (percent(70))
        bind_cursor(at);
}

/* The keys of the selected rows, 120 on a page, and then the cursor is freed:
   what a tree selected shows. */
static void survey(struct place at)
{
    bindings.handle = at.handle;
    bindings.column_count = 1;
    bindings.columns[0] = (struct plan_column){
        .property = 2, .type = TYPE_NUMBER, .value_used = 1, .value_size = 4};
    bindings.width = 4;
    make_bindings();
    (void)send_to(at.seat);
    plan_rows(at.handle, 4);
    request.asked = PEER_ROWS;
    request.reserved = 20;
    request.read_buffer = 512;
    request.client_base = 0;
    make_rows_message();
    (void)send_to(at.seat);
    if (percent(80))
        free_cursor(at);
}

void scene_any_tree(void)
{
    struct place at = need_closed();
    make_any_tree();
    if (call_open(at.seat, tree.bytes, tree.length) == 0)
        survey(at);
}

/* One leaf, for every relation and both methods. */
void scene_leaf(void)
{
    struct place at = need_closed();
    clear(&tree);
    if (percent(40))
        add_node(NOT);
    add_leaf();
    if (call_open(at.seat, tree.bytes, tree.length) == 0)
        survey(at);
}

void scene_limit_tree(void)
{
    struct place at = need_closed();
    make_limit_tree();
    if (call_open(at.seat, tree.bytes, tree.length) == 0 && percent(50))
        survey(at);
}

void scene_empty_selection(void)
{
    struct place at = need_closed();
    make_empty_selection_tree();
    (void)call_open(at.seat, tree.bytes, tree.length);
    if (percent(60)) {
        bind_cursor(at);
        (void)fetch(at);
    }
}

/* Pages in a row, to the end or not, with other cursors' pages and new
   bindings between them. */
void scene_pages(void)
{
    struct place at = need_bound();
    for (uint32_t pages = between(2, 6); pages > 0 && is_bound(at); pages--) {
        uint32_t refusal = fetch(at);
        struct place other;
        if (refusal == 15 || percent(12))
            bind_cursor(at);
        if (percent(25) && find_cursor(is_bound_with_rows, &other))
            (void)fetch(other);
        if (remaining(at) == 0 && percent(70))
            break;
    }
}

/* One row after the other. */
void scene_small_pages(void)
{
    struct place at = need_bound();
    uint32_t asked = between(1, 3);
    for (uint32_t pages = between(2, 6); pages > 0; pages--) {
        plan_page(at);
        request.asked = asked;
        request.read_buffer = 512 * between(1, 3);
        request.client_base = any_client_base(request.read_buffer);
        make_rows_message();
        (void)send_to(at.seat);
    }
}

void scene_zero_rows(void)
{
    struct place at = need_bound();
    plan_page(at);
    request.asked = 0;
    make_rows_message();
    (void)send_to(at.seat);
}

void scene_after_end(void)
{
    struct place at;
    if (!find_cursor(is_at_end, &at))
        return;
    plan_page(at);
    if (percent(30))
        request.asked = 0;
    make_rows_message();
    (void)send_to(at.seat);
}

/* The bytes of the blocks of a row under the planned bindings. */
static uint32_t plan_block_bytes(const struct row *row)
{
    uint32_t bytes = 0;
    for (uint32_t at = 0; at < bindings.column_count; at++) {
        const struct plan_column *column = &bindings.columns[at];
        if (!column->value_used || column->property < 5)
            continue;
        const struct text *text = &row->texts[column->property - 5];
        if (text->present)
            bytes += 2 * text->units + 2;
    }
    return bytes;
}

/* New bindings and a request so that the next rows, so many of them, take
   exactly B bytes, or a few more or less: R + K x W + blocks = B + over. */
void scene_tight_page(void)
{
    struct place at = need_rows();
    const uint32_t *cursor = cursor_of(at);
    uint32_t left = remaining(at);
    if (left == 0 || state_refusal() != 4)
        return;
    uint32_t count = percent(60) ? 1 : between(1, least_of(left, 8));
    plan_bindings(at.handle);
    uint32_t least = lay_out(), blocks = 0;
    if (least == 0)
        least = 1;
    for (uint32_t row = 0; row < count; row++)
        blocks += plan_block_bytes(
            &contents.rows[cursor[CURSOR_ROW_NUMBERS + cursor[CURSOR_POSITION] +
                               row]]);
    uint32_t over = PICK(0, 0, 0, 1, 1, 2, ~0u, ~1u, 3, 24);
    uint32_t bytes = 32 + count * least + blocks;
    uint32_t buffer = (bytes + 60 + 511) / 512 * 512;
    for (uint32_t tries = 0; tries < 200; tries++) {
        uint32_t first = between(32, 76);
        uint32_t left_over = buffer + over - blocks - first;
        if (left_over % count != 0)
            continue;
        uint32_t width = left_over / count;
        if (buffer > 16384 || width < least || width > 4096)
            continue;
        bindings.width = width;
        make_bindings();
        (void)send_to(at.seat);
        plan_rows(at.handle, width);
        request.asked = percent(50) ? count : count + below(3);
        if (percent(8))
            request.asked = 0;
        request.reserved = first - 12;
        request.read_buffer = buffer;
        request.client_base = any_client_base(buffer);
        make_rows_message();
        (void)send_to(at.seat);
        return;
    }
}

void scene_rebind(void)
{
    struct place at = need_open();
    bind_cursor(at);
    if (percent(50))
        (void)fetch(at);
}

void scene_free(void)
{
    struct place at;
    if ((find_cursor(is_at_end, &at) && percent(70)) ||
        find_cursor(is_open, &at))
        free_cursor(at);
}

void scene_disconnect(void)
{
    uint32_t seat = need_connected();
    make_disconnect();
    (void)send_to(seat);
}

/* The least row count under which every open cursor keeps its rows. */
static uint32_t rows_in_use(void)
{
    uint32_t least = 0;
    struct place at;
    for (at.seat = 0; at.seat < PEER_SEATS; at.seat++)
        for (at.handle = 1; at.handle <= PEER_CURSORS; at.handle++) {
            const uint32_t *cursor = cursor_of(at);
            uint32_t selected = cursor[CURSOR_SELECTED];
            if (selected > 0 &&
                cursor[CURSOR_ROW_NUMBERS + selected - 1] >= least)
                least = cursor[CURSOR_ROW_NUMBERS + selected - 1] + 1;
        }
    return least;
}

static void disconnect_all(void)
{
    for (uint32_t seat = 0; seat < PEER_SEATS; seat++)
        if (is_connected(seat)) {
            make_disconnect();
            (void)send_to(seat);
        }
}

/* Another catalogue, under which every open cursor keeps its rows. Where they
   are many, all seats leave at times, so that the catalogue can be small. */
void scene_new_catalogue(void)
{
    static struct contents kept;
    if (rows_in_use() > 60 && percent(60))
        disconnect_all();
    uint32_t least = rows_in_use();
    kept = contents;
    make_catalogue(&contents);
    if (contents.row_count < least)
        make_rows(&contents, least, MOST_CATALOGUE, percent(50) ? 8 : 40);
    if (contents.row_count < least)
        contents = kept;
    lend_contents();
}

/* The host moves a position within its selection. */
void scene_rewind(void)
{
    struct place at;
    if (!find_cursor(is_bound, &at))
        return;
    call_word(cursor_word(at) + CURSOR_POSITION,
              percent(60) ? 0 : below(cursor_of(at)[CURSOR_SELECTED] + 1));
    (void)fetch(at);
}

/* The host opens a cursor: a selection of its own choice. */
void scene_host_opens(void)
{
    struct place at;
    if (!find_cursor(is_closed, &at))
        return;
    uint32_t base = cursor_word(at);
    uint32_t selected = least_of(contents.row_count, below(4));
    call_word(base + CURSOR_OPEN, 1);
    for (uint32_t row = 0; row < selected; row++)
        call_word(base + CURSOR_ROW_NUMBERS + row,
                  row + 1 == selected ? contents.row_count - 1 : row);
    if (selected > 0)
        call_word(base + CURSOR_SELECTED, selected);
    bind_cursor(at);
    (void)fetch(at);
}
