/* Makes the calls of libnadrzewie.a as a C host makes them, each beside the same call of the second server (peer/) on its own
   table: answer, reply buffer and table must agree, and be what is written here. The argument names the part to walk through:
   `refusals`, `sessions` or `rows`. Prints the count of checks and exits with 1 at the first that fails. */
#include "nadrzewie.h"
#include "calls.h"
#include "../../peer/server.h"

int printf(const char *format, ...);
int strcmp(const char *a, const char *b);

enum { ROOM = 20000, END_OF_ROWSET = 0x00040EC6 };

/* what the next calls are lent, and the table before the last one */
static u32 ours[NADRZEWIE_TABLE_WORDS + 1], theirs[NADRZEWIE_TABLE_WORDS + 1], before[NADRZEWIE_TABLE_WORDS + 1];
static byte bytes[70000], message[ROOM], tree[ROOM], reply[ROOM], their_reply[ROOM];
static u64 words, size, room, checks;
static const char *call = "";

static void hold(int good, const char *what)
{
    checks++;
    if (good)
        return;
    printf("walk: %s: %s, after %lu checks that passed\n", call, what, checks - 1);
    exit(1);
}

static void start(const char *what)
{
    static const byte two_rows[] = {0x02, 0xAC, 0x02, 0x87, 0x08, 0x05, 0x03, 0x4F, 0x00, 0x4B, 0x00, 0x00, 0x01, 0, 0, 0, 0};
    call = what;
    memset(ours, 0, sizeof ours);
    memset(theirs, 0, sizeof theirs);
    memcpy(bytes, two_rows, size = sizeof two_rows);
    words = NADRZEWIE_TABLE_WORDS;
    room = NADRZEWIE_REPLY_BYTES;
}

static struct peer_lent lent(void)
{
    memcpy(before, ours, sizeof ours);
    return (struct peer_lent){theirs, words, bytes, size};
}

static void tables(u32 refusal)
{
    hold(memcmp(ours, theirs, sizeof ours) == 0, "the table is the second server's");
    hold(refusal == 0 || memcmp(ours, before, sizeof ours) == 0, "a refusal leaves the table as it was");
}

static void connects(u32 seat, u32 version, u32 refusal)
{
    u32 peers = peer_connect(lent(), (struct peer_seat){seat}, version);
    u32 said = nadrzewie_connect(ours, words, bytes, size, (nadrzewie_seat){seat}, version);
    hold(said == refusal && said == peers, "the refusal");
    tables(refusal);
}

static void opens(u32 seat, u64 tree_size, u32 refusal, u32 handle)
{
    struct peer_opened peers = peer_open(lent(), (struct peer_seat){seat}, tree, tree_size);
    nadrzewie_opened said = nadrzewie_open(ours, words, bytes, size, (nadrzewie_seat){seat}, tree, tree_size);
    hold(said.refusal == refusal && said.refusal == peers.refusal, "the refusal");
    hold(said.handle.number == handle && said.handle.number == peers.handle.number, "the handle");
    tables(refusal);
}

static void sends(u32 seat, u64 message_size, u32 refusal, u32 count)
{
    memset(reply, 0xAA, ROOM);
    memset(their_reply, 0xAA, ROOM);
    struct peer_answer peers = peer_message(lent(), (struct peer_seat){seat}, message, message_size, their_reply, room);
    nadrzewie_answered said = nadrzewie_message(ours, words, bytes, size, (nadrzewie_seat){seat}, message, message_size, reply, room);
    hold(said.refusal == refusal && said.refusal == peers.refusal, "the refusal");
    hold(said.count == count && said.count == peers.count, "the count");
    hold(memcmp(reply, their_reply, ROOM) == 0, "the reply is the second server's");
    for (u64 i = count; i < ROOM; i++)
        if (reply[i] != 0xAA)
            hold(0, "the reply is unchanged past the count");
    tables(refusal);
}

/* the first words of the reply */
static void replied(u32 msg, u32 status)
{
    hold(word_at(reply, 0) == msg && word_at(reply, 4) == status, "the header says message and status");
    hold(word_at(reply, 8) == 0 && word_at(reply, 12) == 0, "the header's last words are zero");
}

static void refused(u32 seat, u64 message_size, u32 refusal, u32 status)
{
    sends(seat, message_size, refusal, 16);
    replied(word_at(message, 0), status);
}

/* the label as a cell at 0, its status at 16 and its length at 20, in a row of 24 bytes */
static const struct column label[] = {{LABEL, CELL, 0, 16, 20}};

static u64 every_row(void)
{
    return put_relation(tree, 0, KEY, 3, 0);
}

/* ---- refusals of calls that serve no rows */

static void any_call(u32 refusal, u32 seat)
{
    connects(seat, 5, refusal);
    opens(seat, every_row(), refusal, 0);
    sends(seat, put_disconnect(message), refusal, 0);
}

static void refusals(void)
{
    start("a seat above 7");
    any_call(1, 8);
    words = 0, size = 0, room = 0;
    any_call(1, 4294967295u);

    start("a malformed table");
    words--;
    any_call(2, 0);
    words += 2;
    any_call(2, 0);
    words = 0, size = 0;
    any_call(2, 0);
    for (u32 i = 0; i < NADRZEWIE_TABLE_WORDS; i += i == 17000 ? 199 : 1700) {
        start("a table with a word not in use");
        ours[i] = theirs[i] = 2;
        any_call(2, 3);
    }

    start("a malformed catalogue");
    for (size = 0; size < 17; size++)
        any_call(3, 0);
    size++;
    any_call(3, 0);
    start("a row that the catalogue lacks");
    connects(1, 5, 0);
    opens(1, every_row(), 0, 1);
    bytes[0] = 0, size = 1;
    any_call(3, 0);

    start("a short reply buffer");
    connects(0, 5, 0);
    room--;
    sends(0, 3, 4, 0);
    room = 0;
    sends(0, put_disconnect(message), 4, 0);
    start("a message's size");
    put_disconnect(message);
    for (u64 count = 0; count < 16; count++)
        sends(0, count, 5, 0);
    sends(0, 16385, 5, 0);

    start("a number that is not served");
    refused(0, put_message(message, 0xC8, 0), 6, 0xC000000D);
    refused(0, put_message(message, 0x000100C9, 0), 6, 0xC000000D);
    start("connected or not");
    opens(0, every_row(), 7, 0);
    refused(0, put_disconnect(message), 7, 0xC000000D);
    connects(0, 8, 0);
    connects(0, 8, 7);
    start("a checksum");
    connects(7, 8, 0);
    u64 n = put_bindings(message, 1, 24, label, 1);
    refused(7, n, 10, 0x80004005);
    message[8] ^= 1;
    refused(7, n, 8, 0xC000000D);
    start("a body");
    connects(2, 5, 0);
    refused(2, put_message(message, DISCONNECT, 1), 9, 0xC000000D);
    refused(2, put_message(message, FREE_CURSOR, 3), 9, 0xC000000D);
    refused(2, put_message(message, SET_BINDINGS, 19), 9, 0xC000000D);
    start("a handle");
    connects(2, 5, 0);
    opens(2, every_row(), 0, 1);
    for (u32 handle = 0; handle < 4; handle++)
        if (handle != 1)
            refused(2, put_free(message, handle), 10, 0x80004005);
    start("bindings");
    connects(2, 5, 0);
    opens(2, every_row(), 0, 1);
    refused(2, put_bindings(message, 1, 23, label, 1), 12, 0x80040E08);
    refused(2, put_bindings(message, 1, 24, label, 0), 12, 0x80040E08);
    start("a third cursor");
    connects(2, 5, 0);
    opens(2, every_row(), 0, 1);
    opens(2, every_row(), 0, 2);
    opens(2, 0, 14, 0);
    start("a tree");
    connects(2, 5, 0);
    opens(2, 0, 16, 0);
    opens(2, every_row() - 1, 16, 0);
    opens(2, put_phrase(tree, 0, KEY, "OK", 0), 16, 0);
    for (u32 levels = 8; levels < 10; levels++) {
        u64 at = 0;
        for (u32 i = 1; i < levels; i++)
            at = put_and(tree, at, 1);
        opens(2, put_phrase(tree, at, LABEL, "OK", 0), levels == 8 ? 0 : 16, levels == 8);
    }
}

/* ---- a session without rows, and the words that it leaves */

static void sessions(void)
{
    start("a session");
    connects(3, 5, 0);
    u32 *seat = ours + 3 * 2150, *first = seat + 2, *second = first + 1074;
    hold(seat[0] == 1 && seat[1] == 5, "the seat is connected");
    opens(3, put_phrase(tree, 0, LABEL, "OK", 0), 0, 1);
    hold(first[0] == 1 && first[2] == 1 && first[50] == 0, "the first cursor has row 0");
    opens(3, put_relation(tree, 0, KEY, 4, 1), 0, 2);
    hold(second[0] == 1 && second[2] == 1 && second[50] == 1, "the second cursor has row 1");
    sends(3, put_bindings(message, 2, 24, label, 1), 0, 16);
    replied(SET_BINDINGS, 0);
    hold(second[3] == 1 && second[4] == 24 && second[5] == LABEL && second[12] == 1 && second[13] == 20, "the bindings stand");
    sends(3, put_free(message, 1), 0, 20);
    replied(FREE_CURSOR, 0);
    hold(word_at(reply, 16) == 1 && first[0] == 0 && second[0] == 1, "one cursor is left");
    opens(3, every_row(), 0, 1);
    hold(first[2] == 2 && first[50] == 0 && first[51] == 1 && first[3] == 0, "the freed handle is used again");
    connects(4, 8, 0);
    sends(3, put_disconnect(message), 0, 0);
    sends(4, put_disconnect(message), 0, 0);
    for (u32 i = 0; i < NADRZEWIE_TABLE_WORDS; i++)
        if (ours[i] != 0)
            hold(0, "the table is fresh again");
}

/* ---- rows */

/* the page of two rows that the rules give byte for byte */
static void whole_case(void)
{
    static const byte head[80] = {
        0xCC, 0, 0, 0, 0xC6, 0x0E, 0x04, 0, 0, 0, 0, 0, 0, 0, 0, 0, 2, 0, 0, 0, 1, 0, 0, 0, 0, 0, 0, 0, 0, 0, 0, 0,
        0x1F, 0, 0, 0, 0, 0, 0, 0, 0xFA, 0x01, 0, 0, 0, 0, 0, 0, 0, 0, 0, 0, 6, 0, 0, 0,
        0, 0, 0, 0, 0, 0, 0, 0, 0, 0, 0, 0, 0, 0, 0, 0, 2, 0, 0, 0, 0, 0, 0, 0};
    static const byte block[6] = {0x4F, 0, 0x4B, 0, 0, 0};
    start("the whole case");
    connects(0, 5, 0);
    opens(0, every_row(), 0, 1);
    refused(0, put_rows(message, 1, 2, 24, 20, 512, 0), 11, 0x8000FFFF);
    sends(0, put_bindings(message, 1, 24, label, 1), 0, 16);
    sends(0, put_rows(message, 1, 2, 24, 20, 512, 0), 0, 512);
    hold(memcmp(reply, head, sizeof head) == 0, "the header and the rows");
    for (u64 i = sizeof head; i < 506; i++)
        hold(reply[i] == 0, "zeros between the rows and the blocks");
    hold(memcmp(reply + 506, block, sizeof block) == 0, "the block");
    sends(0, put_rows(message, 1, 2, 24, 20, 512, 0), 0, 512);
    replied(GET_ROWS, END_OF_ROWSET);
    hold(word_at(reply, 16) == 0, "none is left");
}

static void rows_refused(void)
{
    start("a request for rows");
    connects(0, 5, 0);
    opens(0, every_row(), 0, 1);
    sends(0, put_bindings(message, 1, 24, label, 1), 0, 16);
    refused(0, put_rows(message, 2, 2, 24, 20, 512, 0), 10, 0x80004005);
    refused(0, put_rows(message, 1, 2, 25, 20, 512, 0), 12, 0x80040E08);
    refused(0, put_rows(message, 1, 2, 24, 19, 512, 0), 9, 0xC000000D);
    refused(0, put_rows(message, 1, 2, 24, 65, 512, 0), 9, 0xC000000D);
    refused(0, put_rows(message, 1, 2, 24, 20, 513, 0), 9, 0xC000000D);
    refused(0, put_rows(message, 1, 2, 24, 20, 16896, 0), 9, 0xC000000D);
    refused(0, put_rows(message, 1, 2, 24, 20, 512, 0xFFFFFE00), 9, 0xC000000D);
    for (u32 i = 0; i < 4; i++) { /* backward, eType, chapter, skip */
        u64 n = put_rows(message, 1, 2, 24, 20, 512, 0);
        put_word(message, 44 + 4 * i, i == 1 ? 2 : 1);
        refused(0, n, 13, 0xC00000BB);
    }
    sends(0, put_rows(message, 1, 0, 24, 20, 512, 0xFFFFFDFF), 0, 512);
    replied(GET_ROWS, 0);

    /* one label of 227 units fits in 512 bytes, one of 228 does not */
    for (u32 units = 227; units < 229; units++) {
        start("a row that fills the page");
        size = put_number(bytes, put_zeros(bytes, 1, 3), units + 1);
        bytes[0] = 1;
        for (u32 i = 0; i < 2 * units; i++)
            bytes[size++] = 'x';
        bytes[size++] = 0;
        connects(0, 5, 0);
        opens(0, every_row(), 0, 1);
        sends(0, put_bindings(message, 1, 24, label, 1), 0, 16);
        u64 n = put_rows(message, 1, 9, 24, 20, 512, 0);
        if (units == 227)
            sends(0, n, 0, 512);
        else
            refused(0, n, 15, 0xC0000023);
    }
}

/* all rows of a selection, page by page: each is carried once, in order, and the end is said with the last */
static void pages(u32 version, u64 tree_size, u32 asked, u32 buffer)
{
    static const struct column columns[] = {{NOTE, CELL, 0, 36, 40}, {KEY, NUMBER, 16, UNUSED, UNUSED}, {LABEL, CELL, 20, 37, 44},
                                            {DEFAULT, CELL, 48, UNUSED, 64}, {LANGUAGE, CELL, UNUSED, 38, UNUSED}};
    u32 carried = 0, last = 0, status;
    start("a walk");
    size = put_catalogue(bytes, 600, 8);
    connects(6, version, 0);
    opens(6, tree_size, 0, 1);
    sends(6, put_bindings(message, 1, 68, columns, 5), 0, 16);
    u32 selected = ours[6 * 2150 + 2 + 2];
    hold(selected > 50 && selected <= 600, "the selection has rows");
    do {
        sends(6, put_rows(message, 1, asked, 68, 64, buffer, 0x10000), 0, buffer);
        status = word_at(reply, 4);
        u32 count = word_at(reply, 16);
        hold(count > 0 && count <= asked, "rows are returned");
        for (u32 i = 0; i < count; i++) {
            u64 row = 76 + 68 * i, block = word_at(reply, row + 28) - 0x10000;
            hold(word_at(reply, row + 16) > last, "keys rise");
            last = word_at(reply, row + 16);
            hold(word_at(reply, row + 20) == 0x1F && word_at(reply, row + 64) == 4, "a label's cell, a number's length");
            hold(block >= 76 + 68 * count && block + word_at(reply, row + 44) <= buffer, "a block inside the reply");
        }
        carried += count;
        hold(status == (carried == selected ? END_OF_ROWSET : 0), "the end is said with the last row");
    } while (status != END_OF_ROWSET);
    sends(6, put_free(message, 1), 0, 20);
    sends(6, put_disconnect(message), 0, 0);
}

static void rows(void)
{
    whole_case();
    rows_refused();
    pages(5, every_row(), 7, 4096);
    pages(8, every_row(), 1000, 16384);
    pages(8, put_phrase(tree, 0, LABEL, "start", 0), 20, 2048);
    pages(8, put_relation(tree, put_phrase(tree, put_and(tree, 0, 2), LABEL, "start", 1), DEFAULT, 0, 4000), 100, 16384);
}

int main(int count, char **argument)
{
    const char *part = count == 2 ? argument[1] : "";
    if (strcmp(part, "refusals") == 0)
        refusals();
    else if (strcmp(part, "sessions") == 0)
        sessions();
    else if (strcmp(part, "rows") == 0)
        rows();
    else
        return printf("usage: walk refusals|sessions|rows\n"), 2;
    printf("%-28s %7lu checks\n", part, checks);
    return 0;
}
