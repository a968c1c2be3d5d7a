/*
 * Holds the tuned form of the server to the plain one where their code
 * differs most: the check of catalogues, at every length of a text, every
 * place of a zero unit and every early end, the choice of rows by a phrase,
 * and pages of rows. Each catalogue stands in memory of exactly its size, and
 * so does a page, so that checks of memory see a byte read or written past it.
 * Exits with 1 where an answer differs.
 */
#define peer_connect tuned_connect
#define peer_open tuned_open
#define peer_message tuned_message
#define peer_catalogue_check tuned_catalogue_check
#define peer_checksum tuned_checksum
#include "tuned.c"
#undef peer_connect
#undef peer_open
#undef peer_message
#undef peer_catalogue_check

/* The plain form, of server.c. */
uint32_t peer_connect(struct peer_lent lent, struct peer_seat seat,
                      uint32_t client_version);
struct peer_opened peer_open(struct peer_lent lent, struct peer_seat seat,
                             const uint8_t *tree, size_t tree_length);
struct peer_answer peer_message(struct peer_lent lent, struct peer_seat seat,
                                const uint8_t *message, size_t message_length,
                                uint8_t *reply, size_t reply_room);
uint32_t peer_catalogue_check(const uint8_t *catalogue, size_t length);

int printf(const char *format, ...);

/* ------------------------------------------------------------------------ */
/* What is compared                                                         */
/* ------------------------------------------------------------------------ */

static unsigned long comparisons, differences;

static void same(bool as_it_must_be, const char *what)
{
    comparisons++;
    if (as_it_must_be)
        return;
    if (differences++ < 10)
        printf("differs: %s, comparison %lu\n", what, comparisons);
}

/* So many bytes in memory of exactly that size. */
static uint8_t *exactly(const uint8_t *bytes, size_t length)
{
    uint8_t *copy = realloc(NULL, length + (length == 0));
    memcpy(copy, bytes, length);
    return copy;
}

static uint32_t both_check(const uint8_t *bytes, size_t length)
{
    uint8_t *copy = exactly(bytes, length);
    uint32_t plain = peer_catalogue_check(copy, length);
    same(tuned_catalogue_check(copy, length) == plain, "a check");
    free(copy);
    return plain;
}

/* ------------------------------------------------------------------------ */
/* Chance, and the bytes of catalogues and trees                            */
/* ------------------------------------------------------------------------ */

static uint64_t chance = 88172645463325252;

static uint32_t below(uint32_t limit)
{
    chance ^= chance << 13;
    chance ^= chance >> 7;
    chance ^= chance << 17;
    return (uint32_t)((chance >> 16) % limit);
}

static uint8_t made[1 << 16];
static size_t length;

static void put_number(uint32_t number)
{
    for (; number >= MORE_GROUPS; number >>= GROUP_BITS)
        made[length++] = (uint8_t)(number | MORE_GROUPS);
    made[length++] = (uint8_t)number;
}

/* Words of two letters and spaces, by chance. */
static void put_units(uint32_t units)
{
    for (; units > 0; units--, length += 2)
        put16(made + length, "a b a "[below(6)]);
}

static void put_text(uint32_t units)
{
    put_number(units + 1);
    put_units(units);
}

static void put_some_number(void)
{
    put_number(0xFFFFFFFF >> below(32));
}

static void put_some_row(uint32_t most_units)
{
    for (unsigned number = 0; number < 3; number++)
        put_some_number();
    for (unsigned text = 0; text < 2; text++)
        if (below(4) == 0)
            put_number(0);
        else
            put_text(below(most_units + 1));
}

static uint32_t put_some_rows(uint32_t most, uint32_t most_units)
{
    uint32_t count = below(most + 1);
    length = 0;
    put_number(count);
    for (uint32_t row = 0; row < count; row++)
        put_some_row(most_units);
    return count;
}

/* So many words, low byte first. */
static void put_words(const uint32_t *words, unsigned count)
{
    for (unsigned word = 0; word < count; word++, length += 4)
        put32(made + length, words[word]);
}

/* A content restriction on the label or the note. */
static void put_tree(void)
{
    uint32_t units = 1 + below(4);
    const uint32_t head[] = {CONTENT, 0};
    length = 0;
    put_words(head, 2);
    memcpy(made + length, set_identifier, sizeof set_identifier);
    length += sizeof set_identifier;
    const uint32_t property[] = {NUMBERED_PROPERTY, PROPERTY_LABEL + below(2),
                                 units};
    put_words(property, 3);
    put_units(units);
    memset(made + length, 0, 2);
    length += length % 4;
    put32(made + length, 1033);
    put32(made + length + 4, below(2));
    length += 8;
}

/* A request for some rows of the first cursor. */
static void put_rows_request(uint32_t row_width, uint32_t read_buffer)
{
    const uint32_t words[] = {
        GET_ROWS, 0, 0, 0, /* the header */
        1, below(14), row_width, SEEK_NEXT_BYTES, LEAST_RESERVED + below(9),
        read_buffer, below(1 << 20), 0, SEEK_NEXT, 0, 0,
    };
    length = 0;
    put_words(words, sizeof words / sizeof *words);
}

/* Where a value, a status or a length is used, as it mostly is, its flag is set
   and it stands at the row's end. Answers the new end. */
static uint32_t use(uint32_t *flag, uint32_t *offset, uint32_t end,
                    uint32_t size)
{
    *flag = below(4) != 0;
    *offset = *flag ? end : 0;
    return *flag ? end + size : end;
}

/* Binds so many columns, from any property on. Answers the row's width. */
static uint32_t bind_some(uint32_t *column, uint32_t count)
{
    uint32_t end = 1, property = below(PEER_COLUMNS);
    for (; count > 0; count--, property++, column += COLUMN_WORDS) {
        column[COLUMN_PROPERTY] = PROPERTY_KEY + property % PEER_COLUMNS;
        bool cell = is_text(column[COLUMN_PROPERTY]) || below(2) == 0;
        uint32_t size = cell ? CELL_BYTES : NUMBER_BYTES;
        column[COLUMN_TYPE] = cell ? TYPE_CELL : TYPE_NUMBER;
        end = use(column + COLUMN_VALUE_USED, column + COLUMN_VALUE_OFFSET,
                  end, size);
        column[COLUMN_VALUE_SIZE] = column[COLUMN_VALUE_USED] ? size : 0;
        end = use(column + COLUMN_STATUS_USED, column + COLUMN_STATUS_OFFSET,
                  end, STATUS_BYTES);
        end = use(column + COLUMN_LENGTH_USED, column + COLUMN_LENGTH_OFFSET,
                  end, LENGTH_BYTES);
    }
    return end;
}

/* ------------------------------------------------------------------------ */
/* The comparisons                                                          */
/* ------------------------------------------------------------------------ */

/* A row with a text of so many units, in the label or the note, well formed,
   with each unit zero, and ended after each byte. */
static void compare_text(uint32_t units, bool in_note)
{
    length = 0;
    put_number(1);
    put_number(1000);
    put_number(1031);
    put_number(5);
    if (in_note)
        put_number(0);
    put_text(units);
    size_t end = length;
    if (!in_note)
        put_number(0);
    same(both_check(made, length) == ACCEPTED, "a text that stands");
    for (size_t unit = end - 2 * (size_t)units; unit < end; unit += 2) {
        uint32_t kept = get16(made + unit);
        put16(made + unit, 0);
        same(both_check(made, length) == CATALOGUE_MALFORMED, "a zero unit");
        put16(made + unit, 0x0100);
        same(both_check(made, length) == ACCEPTED, "a unit of 256");
        put16(made + unit, kept);
    }
    for (size_t early = 0; early < length; early++)
        same(both_check(made, early) == CATALOGUE_MALFORMED, "an early end");
}

/* Rows by chance, well formed, ended early, and with some bytes changed. */
static void compare_rows(void)
{
    put_some_rows(12, 70);
    same(both_check(made, length) == ACCEPTED, "rows that stand");
    for (unsigned change = 0; change < 20; change++) {
        size_t place = below((uint32_t)length);
        both_check(made, place);
        uint8_t kept = made[place];
        made[place] = (const uint8_t[]){0, 1, 127, 128, 129, 255}[below(6)];
        both_check(made, length);
        made[place] = kept;
    }
}

/* A table for each form, and what both are lent with the catalogue made last:
   the first seat is connected. */
static uint32_t tables[2][PEER_TABLE_WORDS];
static const struct peer_seat first_seat = {0};

static void connect_both(struct peer_lent *lent, const uint8_t *catalogue)
{
    for (unsigned form = 0; form < 2; form++) {
        memset(tables[form], 0, sizeof tables[form]);
        lent[form] = (struct peer_lent){tables[form], PEER_TABLE_WORDS,
                                        catalogue, length};
    }
    same(peer_connect(lent[0], first_seat, 7) == ACCEPTED &&
             tuned_connect(lent[1], first_seat, 7) == ACCEPTED,
         "a connection");
}

static bool same_tables(void)
{
    return memcmp(tables[0], tables[1], sizeof tables[0]) == 0;
}

/* Both forms open the same tree: the whole tables are the same. */
static void compare_opening(void)
{
    put_some_rows(12, below(2) == 0 ? 12 : 200);
    uint8_t *catalogue = exactly(made, length);
    struct peer_lent lent[2];
    connect_both(lent, catalogue);
    put_tree();
    uint8_t *tree = exactly(made, length);
    bool accepted =
        peer_open(lent[0], first_seat, tree, length).refusal == ACCEPTED &&
        tuned_open(lent[1], first_seat, tree, length).refusal == ACCEPTED;
    same(accepted, "an opening");
    same(same_tables(), "a selection");
    free(tree);
    free(catalogue);
}

/* A cursor on so many rows, with some columns bound, in both tables. Answers
   the row's width. */
static uint32_t open_on_rows(uint32_t count)
{
    uint32_t *cursor = cursor_block(seat_block(tables[0], first_seat), 0);
    cursor[CURSOR_OPEN] = 1;
    cursor[CURSOR_SELECTED] = count;
    for (uint32_t row = 0; row < count; row++)
        cursor[CURSOR_ROW_NUMBERS + row] = row;
    uint32_t columns = 1 + below(PEER_COLUMNS);
    cursor[CURSOR_COLUMN_COUNT] = columns;
    cursor[CURSOR_ROW_WIDTH] = bind_some(cursor + CURSOR_COLUMNS, columns);
    memcpy(tables[1], tables[0], sizeof tables[1]);
    return cursor[CURSOR_ROW_WIDTH];
}

/* Both forms send the same page, or refuse it: the replies are the same with
   all that they leave, and the tables are. */
static void compare_page(void)
{
    uint32_t count = put_some_rows(12, below(2) == 0 ? 12 : 200);
    uint8_t *catalogue = exactly(made, length);
    struct peer_lent lent[2];
    connect_both(lent, catalogue);
    uint32_t width = open_on_rows(count);
    memset(made, 0xA5, LEAST_REPLY_ROOM);
    uint8_t *plain = exactly(made, LEAST_REPLY_ROOM);
    uint8_t *tuned = exactly(made, LEAST_REPLY_ROOM);
    put_rows_request(width, READ_BUFFER_STEP << below(6));
    struct peer_answer answers[2] = {
        peer_message(lent[0], first_seat, made, length, plain,
                     LEAST_REPLY_ROOM),
        tuned_message(lent[1], first_seat, made, length, tuned,
                      LEAST_REPLY_ROOM),
    };
    same(answers[0].refusal == ACCEPTED ||
             answers[0].refusal == FIRST_ROW_TOO_LARGE,
         "a page that is sent or too large");
    same(answers[0].refusal == answers[1].refusal &&
             answers[0].count == answers[1].count,
         "the answer of a page");
    same(memcmp(plain, tuned, LEAST_REPLY_ROOM) == 0, "a page");
    same(same_tables(), "the table after a page");
    free(tuned);
    free(plain);
    free(catalogue);
}

int main(void)
{
    for (uint32_t units = 0; units <= 140; units++) {
        compare_text(units, false);
        compare_text(units, true);
    }
    for (unsigned turn = 0; turn < 2000; turn++)
        compare_rows();
    for (unsigned turn = 0; turn < 2000; turn++)
        compare_opening();
    for (unsigned turn = 0; turn < 4000; turn++)
        compare_page();
    printf("%lu comparisons, %lu differences\n", comparisons, differences);
    return differences != 0;
}
