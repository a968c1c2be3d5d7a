/* What is measured: one of two servers, libnadrzewie.a or the second server (peer/), makes one call so many times. The
   difference between two counts is the cost of the calls alone: all that is made ready does not depend on the count, and each
   call has a table of its own, so that all of them do the same. Arguments: `ours` or `peer`; the call; the catalogue, which is
   a row count or `words` (100 rows with notes of 2,048 units, words of seven letters), `spaces` (the same of spaces alone) or
   `largest` (1,024 rows of 1,024 bytes); the count of calls, at most 4. Or `fit` and a size in bytes: prints the most rows of a
   catalogue that is no larger, and its size. */
#include "nadrzewie.h"
#include "../tests/c/calls.h"
#include "../peer/server.h"

int printf(const char *format, ...);
int strcmp(const char *a, const char *b);
int atoi(const char *digits);

enum { TABLES = 4, ROWS_MOST = 1024, LONG_ROWS = 100, LABEL_LEAST = 8, WIDTH = 64, RESERVED = 20, BUFFER = 16384 };
enum { END_OF_ROWSET = 0x00040EC6 };

static u32 tables[TABLES][NADRZEWIE_TABLE_WORDS];
static byte catalogue[1100000], tree[4096], message[16384], reply[NADRZEWIE_REPLY_BYTES];
static u64 size, rows, tree_size, message_size;
static int ours;

/* ---- the calls of either side: a refusal is an error */

static void accept(const char *call, u32 refusal)
{
    if (refusal == 0)
        return;
    printf("%s is refused: %u\n", call, refusal);
    exit(1);
}

static struct peer_lent lent(u32 *table)
{
    return (struct peer_lent){table, NADRZEWIE_TABLE_WORDS, catalogue, size};
}

static void connects(u32 *table, u32 seat)
{
    accept("connecting", ours ? nadrzewie_connect(table, NADRZEWIE_TABLE_WORDS, catalogue, size, (nadrzewie_seat){seat}, 8)
                              : peer_connect(lent(table), (struct peer_seat){seat}, 8));
}

static void opens(u32 *table, u32 seat)
{
    accept("opening", ours ? nadrzewie_open(table, NADRZEWIE_TABLE_WORDS, catalogue, size, (nadrzewie_seat){seat}, tree, tree_size).refusal
                           : peer_open(lent(table), (struct peer_seat){seat}, tree, tree_size).refusal);
}

static void sends(u32 *table, u32 seat)
{
    accept("a message", ours ? nadrzewie_message(table, NADRZEWIE_TABLE_WORDS, catalogue, size, (nadrzewie_seat){seat}, message,
                                                 message_size, reply, sizeof reply).refusal
                             : peer_message(lent(table), (struct peer_seat){seat}, message, message_size, reply, sizeof reply).refusal);
}

/* ---- what is sent */

/* a row's three numbers as cells of 4 bytes, its label and its note as cells of 16 with status and length */
static const struct column columns[] = {{KEY, NUMBER, 0, UNUSED, UNUSED}, {LANGUAGE, NUMBER, 4, UNUSED, UNUSED},
                                        {DEFAULT, NUMBER, 8, UNUSED, UNUSED}, {LABEL, CELL, 16, 32, 36}, {NOTE, CELL, 44, 60, 40}};

/* without the texts, a row of 24 bytes: twenty fill 512 bytes */
static const struct column numbers[] = {{KEY, NUMBER, 0, 4, 8}, {DEFAULT, NUMBER, 12, 5, 16}};

static void every_row(void)
{
    tree_size = put_relation(tree, 0, KEY, 3, 0);
}

static void phrase(u32 property)
{
    tree_size = put_phrase(tree, 0, property, "start", 0);
}

/* an and of three: the default below 4,000, a phrase in the label, the language from 1,035 on */
static void branches(void)
{
    u64 at = put_relation(tree, put_and(tree, 0, 3), DEFAULT, 0, 4000);
    tree_size = put_relation(tree, put_phrase(tree, at, LABEL, "start", 1), LANGUAGE, 3, 1035);
}

/* 64 nodes: an and of nine ors, each of six relations, which have all properties and relations, and values about the middle. About
   half of them hold, and of 500 rows 217 are selected. */
static void widest(void)
{
    u64 at = put_and(tree, 0, 9);
    for (u32 i = 0; i < 9; i++) {
        at = put_or(tree, at, 6);
        for (u32 k = 0; k < 6; k++) {
            const u32 middle[] = {1000 + 37 * (150 + 25 * i), 1038 + i, 1500 + 250 * i};
            at = put_relation(tree, at, KEY + k % 3, (2 * i + k / 3) % 6, middle[k % 3]);
        }
    }
    tree_size = at;
}

static void asks_rows(u32 count, u32 width, u32 buffer)
{
    message_size = put_rows(message, 1, count, width, RESERVED, buffer, 0);
}

static void binds(void)
{
    message_size = put_bindings(message, 1, WIDTH, columns, 5);
}

/* ---- tables made ready: those of all calls are the same */

static void copies(void)
{
    for (int i = 1; i < TABLES; i++)
        memcpy(tables[i], tables[0], sizeof tables[0]);
}

/* a connected seat with a cursor on every row, bound to these columns */
static void cursor(u32 seat, u32 width, const struct column *bound, u32 count)
{
    connects(tables[0], seat);
    every_row();
    opens(tables[0], seat);
    message_size = put_bindings(message, 1, width, bound, count);
    sends(tables[0], seat);
}

/* seven seats, each with two cursors on every row: the first seat's words, and copies of them */
static void full(void)
{
    cursor(0, WIDTH, columns, 5);
    opens(tables[0], 0);
    for (u32 seat = 1; seat < 7; seat++)
        memcpy(tables[0] + seat * SEAT_WORDS, tables[0], SEAT_WORDS * sizeof(u32));
}

/* ---- the tasks */

static u64 sum;

static void checksum(u32 *table)
{
    (void)table;
    sum += ours ? nadrzewie_checksum(catalogue, 16384) : peer_checksum(catalogue, 16384);
}

static void check(u32 *table)
{
    (void)table;
    accept("the catalogue", ours ? nadrzewie_catalogue_check(catalogue, size) : peer_catalogue_check(catalogue, size));
}

static void connect_one(u32 *table)
{
    connects(table, 7);
}

static void open_one(u32 *table)
{
    opens(table, 0);
}

static void send_one(u32 *table)
{
    sends(table, 0);
}

/* connect, open, bind, pages of 100 rows up to the end, free, disconnect */
static void walk(u32 *table)
{
    u32 carried = 0;
    connects(table, 0);
    opens(table, 0);
    binds();
    sends(table, 0);
    asks_rows(100, WIDTH, BUFFER);
    do {
        sends(table, 0);
        carried += word_at(reply, 16);
    } while (word_at(reply, 4) != END_OF_ROWSET);
    if (carried != rows)
        accept("the walk's row count", carried + 1);
    message_size = put_free(message, 1);
    sends(table, 0);
    message_size = put_disconnect(message);
    sends(table, 0);
}

static void (*task(const char *name))(u32 *)
{
    if (strcmp(name, "checksum") == 0)
        return checksum;
    if (strcmp(name, "check") == 0)
        return check;
    if (strcmp(name, "connect") == 0)
        return connect_one;
    if (strcmp(name, "connect-full") == 0)
        return full(), connect_one;
    if (strcmp(name, "open-phrase") == 0)
        return connects(tables[0], 0), phrase(LABEL), open_one;
    if (strcmp(name, "open-note") == 0)
        return connects(tables[0], 0), phrase(NOTE), open_one;
    if (strcmp(name, "open-branches") == 0)
        return connects(tables[0], 0), branches(), open_one;
    if (strcmp(name, "open-widest") == 0)
        return connects(tables[0], 0), widest(), open_one;
    if (strcmp(name, "open-relation") == 0)
        return connects(tables[0], 0), every_row(), open_one;
    if (strcmp(name, "bind") == 0)
        return cursor(0, WIDTH, columns, 5), send_one;
    if (strcmp(name, "page-numbers") == 0)
        return cursor(0, 24, numbers, 2), asks_rows(20, 24, 512), send_one;
    if (strcmp(name, "page-0") == 0)
        return cursor(0, WIDTH, columns, 5), asks_rows(0, WIDTH, 512), send_one;
    if (strcmp(name, "page-10") == 0)
        return cursor(0, WIDTH, columns, 5), asks_rows(10, WIDTH, BUFFER), send_one;
    if (strcmp(name, "page-20") == 0)
        return cursor(0, WIDTH, columns, 5), asks_rows(20, WIDTH, 4096), send_one;
    if (strcmp(name, "page-100") == 0)
        return cursor(0, WIDTH, columns, 5), asks_rows(100, WIDTH, BUFFER), send_one;
    if (strcmp(name, "walk") == 0)
        return every_row(), walk;
    printf("no such call: %s\n", name);
    exit(2);
}

static void lend(const char *name)
{
    if (strcmp(name, "largest") == 0) {
        rows = ROWS_MOST;
        size = put_largest(catalogue, LABEL_LEAST);
        return;
    }
    int spaces = strcmp(name, "spaces") == 0, numbered = !spaces && strcmp(name, "words") != 0;
    rows = numbered ? (u64)atoi(name) : LONG_ROWS;
    if (rows == 0 || rows > ROWS_MOST) {
        printf("no such catalogue: %s\n", name);
        exit(2);
    }
    size = numbered ? put_catalogue(catalogue, rows, LABEL_LEAST) : put_long_notes(catalogue, rows, LABEL_LEAST, spaces);
}

int main(int count, char **argument)
{
    if (count == 3 && strcmp(argument[1], "fit") == 0) {
        u64 most = (u64)atoi(argument[2]);
        for (rows = ROWS_MOST; (size = put_catalogue(catalogue, rows, LABEL_LEAST)) > most; rows--)
            ;
        printf("%lu %lu\n", rows, size);
        return 0;
    }
    if (count != 5) {
        printf("usage: calls ours|peer CALL ROWS|words|spaces|largest COUNT, or calls fit BYTES\n");
        return 2;
    }
    ours = strcmp(argument[1], "ours") == 0;
    lend(argument[3]);
    void (*once)(u32 *) = task(argument[2]);
    copies();
    for (int i = 0; i < atoi(argument[4]) && i < TABLES; i++)
        once(tables[i]);
    if (once == send_one && word_at(message, 0) == GET_ROWS && word_at(reply, 16) != word_at(message, 20))
        accept("a page's row count", word_at(reply, 16) + 1);
    return 0;
}
