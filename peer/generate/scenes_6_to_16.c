/*
 * Scenes of refusals 6 to 16: what a call asks for in a state that is well. One
 * thing is wrong, or several, where the order of the tests decides.
 */
#include "scenes.h"
#include "bindings.h"
#include "chance.h"
#include "lines.h"
#include "requests.h"
#include "session.h"
#include "trees.h"

void scene_unserved_message(void)
{
    uint32_t seat = percent(70) ? need_connected() : below(PEER_SEATS);
    begin_message(PICK(0, 0xC8, 0xCA, 0xCD, 0xCE, 0xCF, 0xD1, 0xD7, 0xE4, 0xE8,
                       0x000100CC, 0x010000C9, 0xFFFFFFFF));
    for (uint32_t more = PICK(0, 0, 4, 44, 7); more > 0; more--)
        add8(&message, any32());
    (void)send_to(seat);
}

void scene_connection(void)
{
    uint32_t seat = find_seat(false);
    if (seat == PEER_SEATS || percent(30)) {
        seat = need_connected();
        (void)call_connect(seat, any_version());
        return;
    }
    switch (below(5)) {
    case 0:
        make_any_tree();
        (void)call_open(seat, tree.bytes, tree.length);
        return;
    case 1:
        make_disconnect();
        break;
    case 2:
        make_free(between(1, 2));
        break;
    case 3:
        plan_bindings(1);
        make_bindings();
        break;
    default:
        plan_rows(1, 24);
        make_rows_message();
    }
    (void)send_to(seat);
}

static bool checksum_is_tested(struct place at)
{
    return is_open(at) && version_of(at.seat) >= 8;
}

/* A wrong checksum where it is tested, of a message that is well or not. */
void scene_checksum(void)
{
    struct place at;
    if (!find_cursor(checksum_is_tested, &at)) {
        at = (struct place){find_seat(false), 1};
        if (at.seat == PEER_SEATS)
            return;
        (void)call_connect(at.seat, PICK(8, 9, 10, 0x00010008, 0xFFFFFFFF));
    }
    switch (below(4)) {
    case 0:
        plan_bindings(at.handle);
        make_bindings();
        break;
    case 1:
        make_malformed_bindings(at.handle);
        break;
    default:
        plan_page(at);
        if (percent(20))
            plan_malformed_rows();
        make_rows_message();
    }
    if (percent(10))
        add8(&message, 1);
    seal_for(at.seat);
    uint32_t right = get32(&message, 8);
    set32(&message, 8, PICK(0, right + 1, right - 1, right ^ 0x80000000,
                            right + get32(&message, 0), ~right, any32()));
    (void)call_message(at.seat, USUAL_ROOM, message.bytes, message.length);
    if (percent(50))
        (void)send_to(at.seat);
}

void scene_malformed_bindings(void)
{
    struct place at = need_open();
    for (uint32_t faults = between(1, 3); faults > 0; faults--) {
        make_malformed_bindings(percent(90) ? at.handle : 3);
        (void)send_to(at.seat);
    }
}

static void send_malformed_rows(struct place at)
{
    plan_page(at);
    uint32_t way = below(10);
    if (way < 7)
        plan_malformed_rows();
    else if (way == 7 && percent(50))
        plan_unserved_seek();
    make_rows_message();
    if (way == 7)
        cut(&message, between(5, 44));
    else if (way == 8)
        cut(&message, between(1, 4));
    else if (way == 9)
        for (uint32_t more = PICK(1, 2, 3, 4, 8); more > 0; more--)
            add8(&message, 0);
    (void)send_to(at.seat);
}

void scene_malformed_rows(void)
{
    struct place at = need_bound();
    for (uint32_t faults = between(1, 3); faults > 0; faults--)
        send_malformed_rows(at);
}

void scene_malformed_short(void)
{
    struct place at = need_open();
    if (percent(50)) {
        make_free(at.handle);
        if (percent(50))
            cut(&message, between(1, 4));
        else
            for (uint32_t more = between(1, 5); more > 0; more--)
                add8(&message, 0);
    } else {
        make_disconnect();
        for (uint32_t more = PICK(1, 2, 4, 8); more > 0; more--)
            add8(&message, 0);
    }
    (void)send_to(at.seat);
}

/* A handle that isn't open, in each message that has one. */
void scene_handle(void)
{
    struct place at = {need_connected(), 0};
    struct place closed;
    uint32_t handle = PICK(0, 3, 4, 0x00010001, 0x80000001, 0xFFFFFFFF);
    if (find_cursor(is_closed, &closed) && percent(50)) {
        at = closed;
        handle = closed.handle;
    }
    switch (below(4)) {
    case 0:
        make_free(handle);
        break;
    case 1:
        plan_bindings(handle);
        make_bindings();
        break;
    case 2:
        make_unfit_bindings(handle);
        break;
    default:
        plan_rows(handle, between(0, 40));
        if (percent(20))
            plan_unserved_seek();
        make_rows_message();
    }
    (void)send_to(at.seat);
}

void scene_no_bindings(void)
{
    struct place at = need_unbound();
    plan_rows(at.handle, PICK(0, 1, 24));
    if (percent(25))
        plan_unserved_seek();
    make_rows_message();
    vary_unserved_body();
    (void)send_to(at.seat);
}

void scene_unfit_bindings(void)
{
    struct place at = need_open();
    for (uint32_t faults = between(1, 3); faults > 0; faults--) {
        make_unfit_bindings(at.handle);
        (void)send_to(at.seat);
    }
}

void scene_width_differs(void)
{
    struct place at = need_bound();
    plan_page(at);
    request.width = PICK(0, request.width + 1, request.width - 1,
                         request.width + 0x00010000, 0xFFFFFFFF);
    if (percent(25))
        plan_unserved_seek();
    make_rows_message();
    vary_unserved_body();
    (void)send_to(at.seat);
}

void scene_seek(void)
{
    struct place at = need_bound();
    plan_page(at);
    plan_unserved_seek();
    make_rows_message();
    vary_unserved_body();
    (void)send_to(at.seat);
}

/* Both handles open, then a third opening with a tree that is well or not. */
void scene_both_open(void)
{
    uint32_t seat = need_connected();
    for (uint32_t handle = 1; handle <= PEER_CURSORS; handle++)
        if (is_closed((struct place){seat, handle})) {
            make_broad_tree();
            (void)call_open(seat, tree.bytes, tree.length);
        }
    if (percent(70))
        make_any_tree();
    else
        make_damaged_tree();
    (void)call_open(seat, tree.bytes, tree.length);
}

void scene_tree_fault(void)
{
    struct place at = need_closed();
    for (uint32_t faults = between(1, 3); faults > 0; faults--) {
        make_damaged_tree();
        if (call_open(at.seat, tree.bytes, tree.length) == 0)
            return;
    }
}

void scene_empty_tree(void)
{
    struct place at = need_closed();
    (void)call_open(at.seat, tree.bytes, 0);
}

/* A tree that is far too long for the server, not for the program. */
void scene_long_tree(void)
{
    struct place at = need_closed();
    make_tree_bytes(42);
    uint32_t length = PICK(4097, 5000, 20000);
    while (tree.length < length)
        add8(&tree, 0);
    (void)call_open(at.seat, tree.bytes, tree.length);
}

/* Several faults in one rows request: the order of the tests decides. */
void scene_several_faults(void)
{
    struct place at = need_open();
    plan_page(at);
    for (uint32_t faults = between(2, 3); faults > 0; faults--)
        switch (below(5)) {
        case 0:
            plan_malformed_rows();
            break;
        case 1:
            plan_unserved_seek();
            break;
        case 2:
            request.handle = PICK(0, 3, 3 - request.handle);
            break;
        case 3:
            request.width++;
            break;
        default:
            request.read_buffer = 512;
        }
    make_rows_message();
    vary_unserved_body();
    uint32_t seat = percent(90) ? at.seat : below(PEER_SEATS);
    seal_for(seat);
    if (percent(15))
        set32(&message, 8, any32());
    if (percent(10))
        set32(&message, 0, PICK(0xCA, 0xC9, 0xCB, 0xD0));
    (void)call_message(seat, percent(92) ? USUAL_ROOM : 16383, message.bytes,
                       message.length);
}
