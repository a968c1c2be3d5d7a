/*
 * Messages, and above all requests for rows. The checksum is put in last of
 * all, so that a fault elsewhere is judged for itself.
 */
#include "requests.h"
#include "chance.h"
#include "lines.h"

/* ------------------------------------------------------------------------ */
/* Any message                                                              */
/* ------------------------------------------------------------------------ */

struct part message;

/* "A request's _status and _ulReserved2 aren't judged." */
void begin_message(uint32_t msg)
{
    clear(&message);
    add32(&message, msg);
    add32(&message, percent(90) ? 0 : any32());
    add32(&message, 0);
    add32(&message, percent(90) ? 0 : any32());
}

uint32_t version_of(uint32_t seat)
{
    return seat < PEER_SEATS ? table[seat * SEAT_WORDS + SEAT_CLIENT_VERSION]
                             : 0;
}

void seal_for(uint32_t seat)
{
    if (message.length < 16 || message.length > 16384)
        return;
    uint32_t right = (uint32_t)peer_checksum(message.bytes, message.length);
    bool free_choice = version_of(seat) < 8 && percent(60);
    set32(&message, 8, free_choice ? PICK(0, 1, right ^ 1, any32()) : right);
}

uint32_t send_to(uint32_t seat)
{
    seal_for(seat);
    uint32_t room = percent(90) ? USUAL_ROOM : between(USUAL_ROOM, MOST_BYTES);
    return call_message(seat, room, message.bytes, message.length);
}

void make_free(uint32_t handle)
{
    begin_message(FREE_CURSOR);
    add32(&message, handle);
}

void make_disconnect(void)
{
    begin_message(DISCONNECT);
}

/* ------------------------------------------------------------------------ */
/* Rows requests                                                            */
/* ------------------------------------------------------------------------ */

struct request request;

static uint32_t any_read_buffer(void)
{
    if (percent(85))
        return 512 * between(1, 4);
    return 512 * (percent(30) ? 32 : between(1, 32));
}

uint32_t any_client_base(uint32_t read_buffer)
{
    switch (below(5)) {
    case 0:
        return 0xFFFFFFFF - read_buffer;
    case 1:
        return below(0xFFFFFFFF - read_buffer);
    case 2:
        return 0x00010000;
    default:
        return 0;
    }
}

void plan_rows(uint32_t handle, uint32_t width)
{
    request.handle = handle;
    request.asked = PICK(1, 1, 2, 3, 5, 10, 20, 100, 1024, 0xFFFFFFFF);
    request.width = width;
    request.seek_bytes = 12;
    request.reserved = percent(50) ? 20 : between(20, 64);
    request.read_buffer = any_read_buffer();
    request.client_base = any_client_base(request.read_buffer);
    request.backward = 0;
    request.seek_type = 1;
    request.chapter = 0;
    request.skip = 0;
}

void make_rows_message(void)
{
    begin_message(GET_ROWS);
    add32(&message, request.handle);
    add32(&message, request.asked);
    add32(&message, request.width);
    add32(&message, request.seek_bytes);
    add32(&message, request.reserved);
    add32(&message, request.read_buffer);
    add32(&message, request.client_base);
    add32(&message, request.backward);
    add32(&message, request.seek_type);
    add32(&message, request.chapter);
    add32(&message, request.skip);
}

void plan_malformed_rows(void)
{
    switch (below(8)) {
    case 0:
    case 1:
        request.reserved =
            PICK(19, 19, 65, 65, 0, 1, 66, 0x00010014, 0xFFFFFFFF);
        break;
    case 2:
    case 7:
        request.read_buffer =
            PICK(0, 0, 1, 256, 768, 511, 513, 1000, 16383, 16385, 16896, 16896,
                 0x00010200, 0xFFFFFE00);
        break;
    case 3:
        request.client_base = nearest_or(0xFFFFFFFF - request.read_buffer + 1,
                                         PICK(0xFFFFFFFF, 0xFFFFFFFE));
        break;
    case 4:
        request.backward = nearest_or(2, PICK(3, 0x00010000, 0xFFFFFFFF));
        break;
    default:
        request.seek_bytes = PICK(0, 8, 11, 13, 20, 24, 0x0001000C, 0xFFFFFFFF);
    }
}

void plan_unserved_seek(void)
{
    switch (below(4)) {
    case 0:
        request.chapter = PICK(1, 2, 0xFFFFFFFF);
        break;
    case 1:
        request.skip = PICK(1, 2, 0xFFFFFFFF);
        break;
    case 2:
        request.backward = 1;
        break;
    default:
        request.seek_type = PICK(0, 2, 3, 4, 5, 0x00010001, 0xFFFFFFFF);
        request.seek_bytes = PICK(12, 8, 16, 20, 24, 0, any32());
        request.chapter = PICK(0, 0, 1);
        request.backward = PICK(0, 0, 1);
    }
}

void vary_unserved_body(void)
{
    if (request.seek_type == 1 || percent(40))
        return;
    if (percent(30))
        cut(&message, between(1, 4));
    else if (percent(10))
        while (message.length < 16384)
            add8(&message, any32());
    else
        for (uint32_t more = between(1, 20); more > 0; more--)
            add8(&message, any32());
}
