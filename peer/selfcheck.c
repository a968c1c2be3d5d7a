/*
 * selfcheck: the numbers of the paper of exact rules ("Numbers to check
 * against", M1 to M12, the edges, the whole case byte for byte), each refusal,
 * and the limits of the library, through its public calls.
 *
 * Writes a line for each difference and exits with 1 if there is one.
 */
#include "server.h"

/* ------------------------------------------------------------------------ */
/* Checks                                                                   */
/* ------------------------------------------------------------------------ */

static unsigned checks, differences;

static void say(const char *text)
{
    size_t length = strlen(text);
    while (length > 0) {
        long written = write(1, text, length);
        if (written <= 0)
            exit(2);
        text += written;
        length -= (size_t)written;
    }
}

static void say_number(uint64_t number)
{
    char digits[21];
    unsigned at = sizeof digits - 1;
    digits[at] = '\0';
    do {
        digits[--at] = (char)('0' + number % 10);
        number /= 10;
    } while (number > 0);
    say(digits + at);
}

static void same(const char *what, uint64_t expected, uint64_t found)
{
    checks++;
    if (expected == found)
        return;
    differences++;
    say("difference: ");
    say(what);
    say(": expected ");
    say_number(expected);
    say(", found ");
    say_number(found);
    say("\n");
}

static void same_bytes(const char *what, const uint8_t *expected,
                       const uint8_t *found, size_t length)
{
    size_t place = 0;
    while (place < length && expected[place] == found[place])
        place++;
    checks++;
    if (place == length)
        return;
    differences++;
    say("difference: ");
    say(what);
    say(": at byte ");
    say_number(place);
    say("\n");
}

/* ------------------------------------------------------------------------ */
/* Bytes being put together                                                 */
/* ------------------------------------------------------------------------ */

struct bytes {
    size_t length;
    uint8_t at[1100000];
};

static void put8(struct bytes *bytes, uint32_t number)
{
    bytes->at[bytes->length++] = (uint8_t)number;
}

static void put16(struct bytes *bytes, uint32_t number)
{
    put8(bytes, number & 0xFF);
    put8(bytes, number >> 8 & 0xFF);
}

static void put32(struct bytes *bytes, uint32_t number)
{
    put16(bytes, number & 0xFFFF);
    put16(bytes, number >> 16);
}

static void set32(uint8_t *at, uint32_t number)
{
    for (unsigned byte = 0; byte < 4; byte++)
        at[byte] = (uint8_t)(number >> 8 * byte);
}

static uint32_t get32(const uint8_t *at)
{
    return (uint32_t)at[0] | (uint32_t)at[1] << 8 | (uint32_t)at[2] << 16 |
           (uint32_t)at[3] << 24;
}

/* A number of the catalogue in its shortest form. */
static void put_groups(struct bytes *bytes, uint32_t number)
{
    for (; number >= 0x80; number >>= 7)
        put8(bytes, (number & 0x7F) | 0x80);
    put8(bytes, number);
}

static void put_units(struct bytes *bytes, const char *text)
{
    for (; *text != '\0'; text++)
        put16(bytes, (uint8_t)*text);
}

static void put_property(struct bytes *bytes, uint32_t property)
{
    for (uint32_t byte = 0x10; byte <= 0x1F; byte++)
        put8(bytes, byte);
    put32(bytes, 1);
    put32(bytes, property);
}

/* ------------------------------------------------------------------------ */
/* One table, one catalogue, one reply                                      */
/* ------------------------------------------------------------------------ */

static uint32_t table[PEER_TABLE_WORDS];
static struct bytes catalogue, tree, message;
static uint8_t reply[20000];

static const struct peer_seat seat_0 = {0};

static struct peer_lent lent(void)
{
    return (struct peer_lent){table, PEER_TABLE_WORDS, catalogue.at,
                              catalogue.length};
}

/* What the catalogue's check says of it. */
static uint32_t check_now(void)
{
    return peer_catalogue_check(catalogue.at, catalogue.length);
}

static void fresh_table(void)
{
    memset(table, 0, sizeof table);
}

static void set_catalogue(const uint8_t *from, size_t length)
{
    catalogue.length = length;
    memcpy(catalogue.at, from, length);
}

/* Rows of key 0, 1, ..., language 2, default 3, without texts. */
static void set_plain_rows(uint32_t count)
{
    catalogue.length = 0;
    put_groups(&catalogue, count);
    for (uint32_t row = 0; row < count; row++) {
        put_groups(&catalogue, row);
        put_groups(&catalogue, 2);
        put_groups(&catalogue, 3);
        put_groups(&catalogue, 0);
        put_groups(&catalogue, 0);
    }
}

/* One row with a label and no note. */
static void set_label(const char *label)
{
    catalogue.length = 0;
    put_groups(&catalogue, 1);
    for (unsigned number = 0; number < 3; number++)
        put_groups(&catalogue, 7);
    put_groups(&catalogue, (uint32_t)strlen(label) + 1);
    put_units(&catalogue, label);
    put_groups(&catalogue, 0);
}

/* One row with a label of so many units "a". */
static void set_long_label(uint32_t units)
{
    catalogue.length = 0;
    put_groups(&catalogue, 1);
    for (unsigned number = 0; number < 3; number++)
        put_groups(&catalogue, 7);
    put_groups(&catalogue, units + 1);
    for (uint32_t unit = 0; unit < units; unit++)
        put16(&catalogue, 'a');
    put_groups(&catalogue, 0);
}

static void put_key_leaf(uint32_t relation, uint32_t value)
{
    put32(&tree, 5);
    put32(&tree, 0);
    put32(&tree, relation);
    put_property(&tree, 2);
    put16(&tree, 0x0013);
    put16(&tree, 0);
    put32(&tree, value);
}

static struct peer_opened open_tree(struct peer_seat seat)
{
    return peer_open(lent(), seat, tree.at, tree.length);
}

/* Opens with "key >= 0", which selects all rows. */
static struct peer_opened open_all(struct peer_seat seat)
{
    tree.length = 0;
    put_key_leaf(3, 0);
    return open_tree(seat);
}

static void start_message(uint32_t msg)
{
    message.length = 0;
    put32(&message, msg);
    put32(&message, 0);
    put32(&message, 0);
    put32(&message, 0);
}

static struct peer_answer send_to(struct peer_seat seat, size_t room)
{
    memset(reply, 0xAA, sizeof reply);
    struct peer_answer answer =
        peer_message(lent(), seat, message.at, message.length, reply, room);
    for (size_t place = answer.count; place < sizeof reply; place++)
        if (reply[place] != 0xAA) {
            same("bytes past the count", 0xAA, reply[place]);
            break;
        }
    return answer;
}

/* Sends with a right checksum. */
static struct peer_answer send(struct peer_seat seat)
{
    if (message.length >= 16 && message.length <= 16384)
        set32(message.at + 8,
              (uint32_t)peer_checksum(message.at, message.length));
    return send_to(seat, 16384);
}

/* The bindings of the whole case, for one property: "type 0x000C at 0, status
   at 16, length at 20, width 24". */
static void bindings_message(uint32_t handle, uint32_t property)
{
    start_message(0xD0);
    put32(&message, handle);
    put32(&message, 24);
    put32(&message, 4 + 42);
    put32(&message, 0x12345678);
    put32(&message, 1);
    put_property(&message, property);
    put32(&message, 0x000C);
    put8(&message, 1);
    put8(&message, 0);
    put16(&message, 0);
    put16(&message, 16);
    put8(&message, 1);
    put8(&message, 0);
    put16(&message, 16);
    put8(&message, 1);
    put8(&message, 0);
    put16(&message, 20);
}

/* M7's request with another handle, count, B and base. */
static void rows_message(uint32_t handle, uint32_t asked, uint32_t read_buffer,
                         uint32_t base)
{
    start_message(0xCC);
    put32(&message, handle);
    put32(&message, asked);
    put32(&message, 24);
    put32(&message, 12);
    put32(&message, 20);
    put32(&message, read_buffer);
    put32(&message, base);
    put32(&message, 0);
    put32(&message, 1);
    put32(&message, 0);
    put32(&message, 0);
}

static void free_message(uint32_t handle)
{
    start_message(0xCB);
    put32(&message, handle);
}

/* A fresh table with seat 0 connected and a bound cursor over all rows. */
static void start_session(uint32_t version, uint32_t property)
{
    fresh_table();
    same("connect", 0, peer_connect(lent(), seat_0, version));
    same("open", 0, open_all(seat_0).refusal);
    bindings_message(1, property);
    same("bindings", 0, send(seat_0).refusal);
}

/* ------------------------------------------------------------------------ */
/* The numbers of the paper                                                 */
/* ------------------------------------------------------------------------ */

/* M1 to M4: numbers in groups, here as the key of the only row. */
static void check_number(const char *what, const uint8_t *groups, size_t count,
                         uint32_t expected)
{
    catalogue.length = 0;
    put8(&catalogue, 1);
    for (size_t group = 0; group < count; group++)
        put8(&catalogue, groups[group]);
    for (unsigned rest = 0; rest < 4; rest++)
        put8(&catalogue, 0);
    same(what, 0, check_now());
    start_session(5, 2);
    rows_message(1, 1, 512, 0);
    same(what, 0, send(seat_0).refusal);
    same(what, 0x0013, get32(reply + 32));
    same(what, expected, get32(reply + 40));
}

static void check_numbers(void)
{
    check_number("M1", (const uint8_t[]){0x7F}, 1, 127);
    check_number("M2", (const uint8_t[]){0x80, 0x01}, 2, 128);
    check_number("M3", (const uint8_t[]){0xFF, 0xFF, 0xFF, 0xFF, 0x0F}, 5,
                 4294967295);
    static const uint8_t long_form[] = {1, 0x80, 0x00, 0, 0, 0, 0};
    same("M4", 3, peer_catalogue_check(long_form, sizeof long_form));
    static const uint8_t too_large[] = {1,    0xFF, 0xFF, 0xFF, 0xFF,
                                        0x1F, 0,    0,    0,    0};
    same("above 32 bits", 3, peer_catalogue_check(too_large, sizeof too_large));
    static const uint8_t six_groups[] = {1,    0xFF, 0xFF, 0xFF, 0xFF,
                                         0x8F, 0x00, 0,    0,    0, 0};
    same("six groups", 3, peer_catalogue_check(six_groups, sizeof six_groups));
}

static void check_checksums(void)
{
    start_message(0xD0);
    same("M5", 0x59533889, peer_checksum(message.at, message.length));
    put32(&message, 0xFFFFFFFF);
    put32(&message, 1);
    same("M6", 0x59533889, peer_checksum(message.at, message.length));
    rows_message(1, 2, 2048, 0);
    same("M7", 0x59533099, peer_checksum(message.at, message.length));
    start_message(0xD0);
    put8(&message, 0x21);
    same("a short last word", (0x59533959u ^ 0x21) - 0xD0,
         peer_checksum(message.at, message.length));
    memset(message.at, 0, 16385);
    same("15 bytes", 4294967296, peer_checksum(message.at, 15));
    same("16 bytes", 0x59533959, peer_checksum(message.at, 16));
    same("16,384 bytes", 0x59533959, peer_checksum(message.at, 16384));
    same("16,385 bytes", 4294967296, peer_checksum(message.at, 16385));
}

/* How many of the catalogue's rows hold the phrase in their label. */
static uint32_t rows_with(const char *phrase, uint32_t method)
{
    uint32_t units = (uint32_t)strlen(phrase);
    tree.length = 0;
    put32(&tree, 4);
    put32(&tree, 1000);
    put_property(&tree, 5);
    put32(&tree, units);
    put_units(&tree, phrase);
    if (units % 2 != 0)
        put16(&tree, 0);
    put32(&tree, 0x409);
    put32(&tree, method);
    fresh_table();
    (void)peer_connect(lent(), seat_0, 5);
    same("open", 0, open_tree(seat_0).refusal);
    return table[SEAT_CURSORS + CURSOR_SELECTED];
}

static void check_phrases(void)
{
    set_label("starting");
    same("M8, method 0", 0, rows_with("start", 0));
    same("M8, method 1", 1, rows_with("start", 1));
    set_label("restart");
    same("M9, method 0", 0, rows_with("start", 0));
    same("M9, method 1", 0, rows_with("start", 1));
    set_label("re start");
    same("M10, method 0", 1, rows_with("start", 0));
    same("M10, method 1", 1, rows_with("start", 1));
    set_label("starting start");
    same("the search goes on", 1, rows_with("start", 0));
    set_label("");
    same("no units hold no phrase", 0, rows_with("a", 1));
    set_plain_rows(1);
    same("absent text holds no phrase", 0, rows_with("a", 1));
}

static void check_fits(void)
{
    set_plain_rows(30);
    start_session(5, 5);
    rows_message(1, 100, 512, 0);
    same("M11", 0, send(seat_0).refusal);
    same("M11, 20 rows", 20, get32(reply + 16));
    same("M11, more remain", 0, get32(reply + 4));
    same("M11, the position", 20, table[SEAT_CURSORS + CURSOR_POSITION]);
    set_long_label(227);
    start_session(5, 5);
    rows_message(1, 1, 512, 0);
    same("M12, 227 units", 0, send(seat_0).refusal);
    same("M12, the block's place", 56, get32(reply + 40));
    set_long_label(228);
    start_session(5, 5);
    rows_message(1, 1, 512, 0);
    same("M12, 228 units", 15, send(seat_0).refusal);
    same("M12, the status", 0xC0000023, get32(reply + 4));
    same("M12, the position", 0, table[SEAT_CURSORS + CURSOR_POSITION]);
}

static void check_client_bases(void)
{
    set_plain_rows(1);
    start_session(5, 5);
    rows_message(1, 0, 512, 0xFFFFFDFF);
    same("base 0xFFFFFDFF", 0, send(seat_0).refusal);
    rows_message(1, 0, 512, 0xFFFFFE00);
    same("base 0xFFFFFE00", 9, send(seat_0).refusal);
}

static uint32_t open_levels(uint32_t levels)
{
    tree.length = 0;
    for (uint32_t level = 1; level < levels; level++) {
        put32(&tree, 3);
        put32(&tree, 0);
    }
    put_key_leaf(3, 0);
    fresh_table();
    (void)peer_connect(lent(), seat_0, 5);
    return open_tree(seat_0).refusal;
}

static uint32_t open_nodes(uint32_t nodes)
{
    tree.length = 0;
    put32(&tree, 2);
    put32(&tree, 0);
    put32(&tree, nodes - 1);
    for (uint32_t node = 1; node < nodes; node++)
        put_key_leaf(4, node);
    fresh_table();
    (void)peer_connect(lent(), seat_0, 5);
    return open_tree(seat_0).refusal;
}

static void check_tree_limits(void)
{
    set_plain_rows(3);
    same("eight levels", 0, open_levels(8));
    same("nine levels", 16, open_levels(9));
    same("64 nodes", 0, open_nodes(64));
    same("65 nodes", 16, open_nodes(65));
    same("an or with no child", 16, open_nodes(1));
    tree.length = 0;
    same("an empty tree", 16, open_tree(seat_0).refusal);
}

/* "A whole case": the request and the reply, byte for byte. */
static void check_whole_case(void)
{
    static const uint8_t whole_catalogue[] = {
        0x02, 0xAC, 0x02, 0x87, 0x08, 0x05, 0x03, 0x4F, 0x00,
        0x4B, 0x00, 0x00, 0x01, 0x00, 0x00, 0x00, 0x00,
    };
    static const uint8_t rows[] = {
        0x1F, 0, 0, 0, 0, 0, 0, 0, 0xFA, 0x01, 0, 0, 0, 0, 0, 0,
        0,    0, 0, 0, 6, 0, 0, 0, 0,    0,    0, 0, 0, 0, 0, 0,
        0,    0, 0, 0, 0, 0, 0, 0, 2,    0,    0, 0, 0, 0, 0, 0,
    };
    static const uint8_t head[] = {
        0xCC, 0, 0, 0, 0xC6, 0x0E, 0x04, 0, 0, 0, 0, 0, 0, 0, 0, 0,
        2,    0, 0, 0, 1,    0,    0,    0, 0, 0, 0, 0, 0, 0, 0, 0,
    };
    static const uint8_t block[] = {0x4F, 0, 0x4B, 0, 0, 0};
    static uint8_t expected[512];
    memcpy(expected, head, sizeof head);
    memcpy(expected + 32, rows, sizeof rows);
    memcpy(expected + 506, block, sizeof block);

    set_catalogue(whole_catalogue, sizeof whole_catalogue);
    start_session(5, 5);
    rows_message(1, 2, 512, 0);
    struct peer_answer answer = send(seat_0);
    same("the whole case", 0, answer.refusal);
    same("the whole case, its count", 512, answer.count);
    same_bytes("the whole case", expected, reply, 512);
    same("its position", 2, table[SEAT_CURSORS + CURSOR_POSITION]);

    /* Asked again: no rows and the end once more. */
    memset(expected + 16, 0, 4);
    memset(expected + 32, 0, 480);
    answer = send(seat_0);
    same("after the end", 0, answer.refusal);
    same_bytes("after the end", expected, reply, 512);
}

/* ------------------------------------------------------------------------ */
/* The refusals and the limits of the library                               */
/* ------------------------------------------------------------------------ */

static void check_refused(const char *what, uint32_t refusal, uint32_t status)
{
    uint8_t expected[16] = {0};
    struct peer_answer answer = send(seat_0);
    same(what, refusal, answer.refusal);
    same(what, 16, answer.count);
    memcpy(expected, message.at, 4);
    set32(expected + 4, status);
    same_bytes(what, expected, reply, 16);
}

static void check_calls(void)
{
    const struct peer_seat seat_8 = {8};
    set_plain_rows(3);
    fresh_table();
    same("a seat above 7", 1, peer_connect(lent(), seat_8, 5));
    same("opening unconnected", 7, open_all(seat_0).refusal);
    free_message(1);
    check_refused("unconnected", 7, 0xC000000D);
    same("connecting", 0, peer_connect(lent(), seat_0, 8));
    same("connecting twice", 7, peer_connect(lent(), seat_0, 8));
    same("the first handle", 1, open_all(seat_0).handle.number);
    same("the second handle", 2, open_all(seat_0).handle.number);
    struct peer_opened third = open_all(seat_0);
    same("no third handle", 14, third.refusal);
    same("handle 0 if refused", 0, third.handle.number);
    rows_message(1, 1, 512, 0);
    check_refused("rows before bindings", 11, 0x8000FFFF);
    bindings_message(1, 5);
    set32(message.at + 20, 23);
    check_refused("a width too small", 12, 0x80040E08);
    bindings_message(3, 5);
    check_refused("handle 3", 10, 0x80004005);
    bindings_message(1, 5);
    same("bindings", 16, send(seat_0).count);
    rows_message(1, 1, 512, 0);
    set32(message.at + 56, 1);
    check_refused("a skip", 13, 0xC00000BB);
    start_message(0xC8);
    check_refused("a message not served", 6, 0xC000000D);
    rows_message(1, 1, 512, 0);
    same("a wrong checksum", 8, send_to(seat_0, 16384).refusal);
    same("a small room", 4, send_to(seat_0, 16383).refusal);
    message.length = 15;
    same("15 bytes", 5, send(seat_0).refusal);
    free_message(1);
    same("freeing", 20, send(seat_0).count);
    same("one cursor remains", 1, get32(reply + 16));
    same("a freed handle is used again", 1, open_all(seat_0).handle.number);
    start_message(0xC9);
    put8(&message, 0);
    check_refused("a disconnect with a body", 9, 0xC000000D);
    start_message(0xC9);
    struct peer_answer answer = send(seat_0);
    same("disconnecting", 0, answer.refusal);
    same("it writes nothing", 0, answer.count);
    for (unsigned word = 0; word < SEAT_WORDS; word++)
        if (table[word] != 0)
            same("a word of the seat", 0, table[word]);
}

static void check_table_word(const char *what, uint32_t word, uint32_t value,
                             uint32_t refusal)
{
    uint32_t kept = table[word];
    table[word] = value;
    same(what, refusal, peer_connect(lent(), seat_0, 5));
    table[word] = kept;
}

static void check_table(void)
{
    const uint32_t cursor = SEAT_CURSORS;
    set_plain_rows(3);
    start_session(5, 5);
    struct peer_lent shorter = lent();
    shorter.table_words--;
    same("a short table", 2, peer_connect(shorter, seat_0, 5));
    check_table_word("a good table", 0, 1, 7);
    check_table_word("a flag of 2", 0, 2, 2);
    check_table_word("an open cursor's seat", 0, 0, 2);
    check_table_word("an open flag of 2", cursor, 2, 2);
    check_table_word("a position at the end", cursor + 1, 3, 7);
    check_table_word("a position past the end", cursor + 1, 4, 2);
    check_table_word("a selection cut short", cursor + 2, 2, 2);
    check_table_word("six columns", cursor + 3, 6, 2);
    check_table_word("a wide row", cursor + 4, 4097, 2);
    check_table_word("an offset that wraps", cursor + 8, 0xFFFFFFF0, 2);
    check_table_word("equal row numbers", cursor + 51, 0, 2);
    check_table_word("a row number of the row count", cursor + 52, 3, 3);
    check_table_word("a row number of 1,024", cursor + 52, 1024, 3);
    check_table_word("past the selection", cursor + 53, 1, 2);
    check_table_word("a closed cursor's word", cursor + 1074 + 9, 1, 2);
    check_table_word("an unconnected seat's word", 2150 + 1, 1, 2);
    check_table_word("the table's last word", PEER_TABLE_WORDS - 1, 1, 2);
}

static void put_long_row(uint32_t key, uint32_t label_units,
                         uint32_t note_units)
{
    put_groups(&catalogue, key);
    put_groups(&catalogue, 1);
    put_groups(&catalogue, 1);
    put_groups(&catalogue, label_units + 1);
    for (uint32_t unit = 0; unit < label_units; unit++)
        put16(&catalogue, 0x0100);
    put_groups(&catalogue, note_units + 1);
    for (uint32_t unit = 0; unit < note_units; unit++)
        put16(&catalogue, 0x0100);
}

/* 2 bytes of row count, 127 rows of 8,199 bytes, and a last one of 7,301 bytes
   where its key takes one: 1,048,576 in all. */
static void set_largest(uint32_t last_key)
{
    catalogue.length = 0;
    put_groups(&catalogue, 128);
    for (uint32_t row = 0; row < 127; row++)
        put_long_row(row, 2048, 2048);
    put_long_row(last_key, 2048, 1599);
}

static void check_catalogue_limits(void)
{
    same("no bytes", 3, peer_catalogue_check(catalogue.at, 0));
    set_plain_rows(0);
    same("no rows", 0, check_now());
    put8(&catalogue, 0);
    same("a byte left", 3, check_now());
    set_plain_rows(1024);
    same("1,024 rows", 0, check_now());
    set_plain_rows(1025);
    same("1,025 rows", 3, check_now());
    set_long_label(2048);
    same("2,048 units", 0, check_now());
    set_long_label(2049);
    same("2,049 units", 3, check_now());
    for (uint32_t unit = 0; unit < 9; unit++) {
        set_long_label(9);
        same("no zero unit", 0, check_now());
        catalogue.at[5 + 2 * unit] = 0;
        same("a zero unit", 3, check_now());
    }
}

static void check_largest_catalogue(void)
{
    set_largest(127);
    same("the largest catalogue's length", 1048576, catalogue.length);
    same("the largest catalogue", 0, check_now());
    start_session(5, 6);
    rows_message(1, 4, 16384, 0);
    same("a page of it", 0, send(seat_0).refusal);
    same("its rows", 3, get32(reply + 16));
    set_largest(128);
    same("a larger one's length", 1048577, catalogue.length);
    same("a larger one", 3, check_now());
}

int main(void)
{
    check_numbers();
    check_checksums();
    check_phrases();
    check_fits();
    check_client_bases();
    check_tree_limits();
    check_whole_case();
    check_calls();
    check_table();
    check_catalogue_limits();
    check_largest_catalogue();
    say_number(checks);
    say(" checks, ");
    say_number(differences);
    say(" differences\n");
    return differences == 0 ? 0 : 1;
}
