/*
 * The second server of Nadrzewie, as a library.
 *
 * "Every call is lent the table and the catalogue; a message also its reply
 * buffer." Nothing else is kept between two calls, and nothing is allocated.
 *
 * Sentences in quotation marks, here and in server.c, are those of the paper
 * of exact rules ("01" for short).
 */
#ifndef PEER_SERVER_H
#define PEER_SERVER_H

#include "plain.h"

/* "There are 8 seats (0 to 7) and 2 cursors a seat, handles 1 and 2". */
enum { PEER_SEATS = 8, PEER_CURSORS = 2 };

/* "the row count (0 to 1,024)"; "columns not 1 to 5" are unfit. */
enum { PEER_ROWS = 1024, PEER_COLUMNS = 5 };

/*
 * The session table, in words of 32 bits: eight seat blocks; in each its two
 * cursor blocks; in each of these five column records and 1,024 row numbers.
 * A fresh table is all zero. No handle is stored: a cursor's place in its seat
 * is its handle, so a table can't hold one that is out of range.
 */
enum {
    COLUMN_PROPERTY = 0,
    COLUMN_TYPE = 1,
    COLUMN_VALUE_USED = 2,
    COLUMN_VALUE_OFFSET = 3,
    COLUMN_VALUE_SIZE = 4,
    COLUMN_STATUS_USED = 5,
    COLUMN_STATUS_OFFSET = 6,
    COLUMN_LENGTH_USED = 7,
    COLUMN_LENGTH_OFFSET = 8,
    COLUMN_WORDS = 9
};
enum {
    CURSOR_OPEN = 0,
    CURSOR_POSITION = 1,
    CURSOR_SELECTED = 2,     /* the selection's length */
    CURSOR_COLUMN_COUNT = 3, /* 0: no bindings */
    CURSOR_ROW_WIDTH = 4,
    CURSOR_COLUMNS = 5,
    CURSOR_ROW_NUMBERS = CURSOR_COLUMNS + PEER_COLUMNS * COLUMN_WORDS,
    CURSOR_WORDS = CURSOR_ROW_NUMBERS + PEER_ROWS
};
enum {
    SEAT_CONNECTED = 0,
    SEAT_CLIENT_VERSION = 1,
    SEAT_CURSORS = 2,
    SEAT_WORDS = SEAT_CURSORS + PEER_CURSORS * CURSOR_WORDS
};
enum { PEER_TABLE_WORDS = PEER_SEATS * SEAT_WORDS };

_Static_assert(CURSOR_WORDS == 1074, "a cursor block");
_Static_assert(SEAT_WORDS == 2150, "a seat block");
_Static_assert(PEER_TABLE_WORDS == 17200, "the session table");

/* "A seat number, a cursor handle and a row number must not be confusable." */
struct peer_seat {
    uint32_t number;
};
struct peer_handle {
    uint32_t number;
};
struct peer_row {
    uint32_t number;
};

/* What every call is lent. The lengths are in words and in bytes. */
struct peer_lent {
    uint32_t *table;
    size_t table_words;
    const uint8_t *catalogue;
    size_t catalogue_length;
};

/* "Every call returns the refusal number, else 0; opening also the handle
   (0 if refused), a message also its count of reply bytes". */
struct peer_opened {
    uint32_t refusal;
    struct peer_handle handle;
};
struct peer_answer {
    uint32_t refusal;
    uint32_t count;
};

uint32_t peer_connect(struct peer_lent lent, struct peer_seat seat,
                      uint32_t client_version);

struct peer_opened peer_open(struct peer_lent lent, struct peer_seat seat,
                             const uint8_t *tree, size_t tree_length);

struct peer_answer peer_message(struct peer_lent lent, struct peer_seat seat,
                                const uint8_t *message, size_t message_length,
                                uint8_t *reply, size_t reply_room);

/* "The first returns 3 or 0; the second the checksum as a 64-bit number, or
   4,294,967,296 for a message of a size that 5 names." */
uint32_t peer_catalogue_check(const uint8_t *catalogue, size_t length);
uint64_t peer_checksum(const uint8_t *message, size_t length);

#endif
