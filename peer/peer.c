/*
 * peer CALLS-FILE: reads a file of recorded calls, serves each of them with
 * the library of server.c, and writes the answers to standard output.
 *
 * The calls, one a line:
 *
 *     catalogue HEX              the catalogue lent from here on
 *     connect SEAT VERSION
 *     open SEAT HEX              the bytes of one restriction tree
 *     message SEAT ROOM HEX      ROOM: the reply buffer's length
 *     word INDEX VALUE           sets a word of the session table
 *
 * The answers, one line for each connect, open and message:
 *
 *     connect REFUSAL
 *     open REFUSAL HANDLE
 *     message REFUSAL COUNT HEX  HEX: the COUNT bytes written, or -
 *
 * The reply buffer is filled with 0xAA before each message; where a byte past
 * COUNT changed, the line ends in ` spilled`.
 *
 * Lines end at a line feed or at the file's end. A `#` starts a comment to the
 * line's end wherever it stands, also inside a word. Words stand between
 * spaces, tabs and carriage returns, all other bytes belong to a word. A line
 * without words is passed over.
 *
 * A line that is no call is answered `error LINE REASON` and changes nothing.
 * Which reason is given where several apply: the first word decides on
 * `unknown call`. Then each place is judged from left to right, and the word
 * in it fully before the next is looked at:
 *
 *     no word is there                                        missing word
 *     a number that isn't digits, or is above 4,294,967,295   bad number
 *     HEX that isn't pairs of hex digits, nor the word `-`    bad hex
 *     a catalogue, tree, message or ROOM over its limit       too long
 *     an INDEX past the table                                 no such word
 *
 * and after the last place: a further word is there           extra word
 *
 * So a form comes before its limit: a message that is too long and has an odd
 * digit is `bad hex`. Numbers may have leading zeros.
 */
#include "server.h"

enum { EXIT_DONE = 0, EXIT_FAILED = 1, EXIT_USAGE = 2 };

enum {
    MOST_CATALOGUE = 32768,
    MOST_BYTES = 20000, /* of a message or a tree */
    MOST_ROOM = 20000,
    REPLY_FILL = 0xAA
};

/* ------------------------------------------------------------------------ */
/* Writing                                                                  */
/* ------------------------------------------------------------------------ */

static bool write_all(int descriptor, const char *from, size_t length)
{
    while (length > 0) {
        long written = write(descriptor, from, length);
        if (written <= 0)
            return false;
        from += written;
        length -= (size_t)written;
    }
    return true;
}

static void complain(const char *text)
{
    (void)write_all(2, text, strlen(text));
}

static _Noreturn void fail(const char *what, const char *name)
{
    complain("peer: ");
    complain(what);
    complain(name);
    complain("\n");
    exit(EXIT_FAILED);
}

/* What was written and not yet sent to standard output. */
static char output[65536];
static size_t output_length;

static void flush_output(void)
{
    if (!write_all(1, output, output_length))
        fail("cannot write the answers", "");
    output_length = 0;
}

static void put_char(char c)
{
    if (output_length == sizeof output)
        flush_output();
    output[output_length++] = c;
}

static void put_text(const char *text)
{
    while (*text != '\0')
        put_char(*text++);
}

static void put_number(uint64_t number)
{
    char digits[20];
    unsigned count = 0;
    do {
        digits[count++] = (char)('0' + number % 10);
        number /= 10;
    } while (number > 0);
    while (count > 0)
        put_char(digits[--count]);
}

/* "HEX: the COUNT bytes written, upper case, or - for none". */
static void put_hex(const uint8_t *bytes, size_t count)
{
    static const char digits[] = "0123456789ABCDEF";
    if (count == 0)
        put_char('-');
    for (size_t place = 0; place < count; place++) {
        put_char(digits[bytes[place] >> 4]);
        put_char(digits[bytes[place] & 0x0F]);
    }
}

/* ------------------------------------------------------------------------ */
/* Reading lines of any length                                              */
/* ------------------------------------------------------------------------ */

struct line_reader {
    int descriptor;
    const char *name;
    char chunk[65536];
    size_t chunk_length, chunk_place;
    char *line;
    size_t line_length, line_room;
};

static bool fill_chunk(struct line_reader *reader)
{
    long got = read(reader->descriptor, reader->chunk, sizeof reader->chunk);
    if (got < 0)
        fail("cannot read ", reader->name);
    reader->chunk_length = (size_t)got;
    reader->chunk_place = 0;
    return got > 0;
}

/* Makes room for so many more bytes of the line. */
static void reserve(struct line_reader *reader, size_t length)
{
    if (reader->line_room - reader->line_length >= length)
        return;
    size_t room = 2 * (reader->line_length + length);
    char *larger = realloc(reader->line, room);
    if (larger == NULL)
        fail("no memory for a line of ", reader->name);
    reader->line = larger;
    reader->line_room = room;
}

/* Moves the unread part of the chunk to the line, up to a line feed. Answers
   whether one was met. */
static bool take_from_chunk(struct line_reader *reader)
{
    const char *from = reader->chunk + reader->chunk_place;
    size_t unread = reader->chunk_length - reader->chunk_place;
    size_t length = 0;
    while (length < unread && from[length] != '\n')
        length++;
    reserve(reader, length + 1);
    memcpy(reader->line + reader->line_length, from, length);
    reader->line_length += length;
    bool ended = length < unread;
    reader->chunk_place += length + ended;
    return ended;
}

/* The next line, without its line feed. False after the last; what stands
   after the last line feed is a line if it holds a byte. */
static bool next_line(struct line_reader *reader)
{
    reader->line_length = 0;
    do {
        if (take_from_chunk(reader))
            return true;
    } while (fill_chunk(reader));
    return reader->line_length > 0;
}

/* ------------------------------------------------------------------------ */
/* Words                                                                    */
/* ------------------------------------------------------------------------ */

struct word {
    const char *text;
    size_t length;
};

/* The unread part of a line, its comment cut off. */
struct words {
    const char *next, *end;
};

static struct words words_of(const char *line, size_t length)
{
    size_t kept = 0;
    while (kept < length && line[kept] != '#')
        kept++;
    return (struct words){line, line + kept};
}

static bool separates(char c)
{
    return c == ' ' || c == '\t' || c == '\r';
}

static bool next_word(struct words *words, struct word *word)
{
    while (words->next < words->end && separates(*words->next))
        words->next++;
    word->text = words->next;
    while (words->next < words->end && !separates(*words->next))
        words->next++;
    word->length = (size_t)(words->next - word->text);
    return word->length > 0;
}

static bool word_is(struct word word, const char *text)
{
    return word.length == strlen(text) &&
           memcmp(word.text, text, word.length) == 0;
}

/* "Numbers are decimal, up to 4,294,967,295." */
static bool read_number(struct word word, uint32_t *number)
{
    uint64_t value = 0;
    for (size_t place = 0; place < word.length; place++) {
        char c = word.text[place];
        if (c < '0' || c > '9')
            return false;
        value = 10 * value + (uint64_t)(c - '0');
        if (value > 0xFFFFFFFF)
            return false;
    }
    *number = (uint32_t)value;
    return true;
}

/* The value of a hex digit of either case, or -1. */
static int hex_digit(char c)
{
    if (c >= '0' && c <= '9')
        return c - '0';
    if (c >= 'A' && c <= 'F')
        return c - 'A' + 10;
    if (c >= 'a' && c <= 'f')
        return c - 'a' + 10;
    return -1;
}

/* "HEX is pairs of hex digits of either case, or `-` for no bytes." */
static bool hex_well_formed(struct word word)
{
    if (word_is(word, "-"))
        return true;
    for (size_t place = 0; place < word.length; place++)
        if (hex_digit(word.text[place]) < 0)
            return false;
    return word.length % 2 == 0;
}

static size_t hex_length(struct word word)
{
    return word_is(word, "-") ? 0 : word.length / 2;
}

/* Writes the bytes of well-formed HEX. */
static void read_hex(struct word word, uint8_t *bytes)
{
    size_t length = hex_length(word);
    for (size_t place = 0; place < length; place++)
        bytes[place] = (uint8_t)(hex_digit(word.text[2 * place]) << 4 |
                                 hex_digit(word.text[2 * place + 1]));
}

/* ------------------------------------------------------------------------ */
/* The calls and their words                                                */
/* ------------------------------------------------------------------------ */

/* What is lent to every call, and the buffers lent to some. Bytes and room are
   lent at the end of their buffers, so that a step past them is a step past
   the buffer. */
struct host {
    uint32_t table[PEER_TABLE_WORDS];
    uint8_t catalogue[MOST_CATALOGUE];
    size_t catalogue_length;
    uint8_t reply[MOST_ROOM];
};

static struct peer_lent lend(struct host *host)
{
    return (struct peer_lent){
        .table = host->table,
        .table_words = PEER_TABLE_WORDS,
        .catalogue = host->catalogue + MOST_CATALOGUE - host->catalogue_length,
        .catalogue_length = host->catalogue_length,
    };
}

/* The bytes of a HEX word of at most MOST_BYTES bytes. */
static const uint8_t *lend_bytes(struct word hex)
{
    static uint8_t bytes[MOST_BYTES];
    uint8_t *at = bytes + MOST_BYTES - hex_length(hex);
    read_hex(hex, at);
    return at;
}

enum { MOST_WORDS = 3 };

/* One word after the first, once judged: a number, or HEX as it stands. */
struct argument {
    uint32_t number;
    struct word hex;
};

static void do_catalogue(struct host *host, const struct argument *arguments)
{
    host->catalogue_length = hex_length(arguments[0].hex);
    read_hex(arguments[0].hex,
             host->catalogue + MOST_CATALOGUE - host->catalogue_length);
}

static void do_connect(struct host *host, const struct argument *arguments)
{
    struct peer_seat seat = {arguments[0].number};
    uint32_t refusal = peer_connect(lend(host), seat, arguments[1].number);
    put_text("connect ");
    put_number(refusal);
    put_char('\n');
}

static void do_open(struct host *host, const struct argument *arguments)
{
    struct peer_seat seat = {arguments[0].number};
    struct word hex = arguments[1].hex;
    struct peer_opened opened =
        peer_open(lend(host), seat, lend_bytes(hex), hex_length(hex));
    put_text("open ");
    put_number(opened.refusal);
    put_char(' ');
    put_number(opened.handle.number);
    put_char('\n');
}

/* Whether a byte past the count is no longer what it was filled with. */
static bool spilled(const uint8_t *reply, size_t room, size_t count)
{
    for (size_t place = count; place < room; place++)
        if (reply[place] != REPLY_FILL)
            return true;
    return false;
}

static void do_message(struct host *host, const struct argument *arguments)
{
    struct peer_seat seat = {arguments[0].number};
    size_t room = arguments[1].number;
    struct word hex = arguments[2].hex;
    uint8_t *reply = host->reply + MOST_ROOM - room;
    memset(reply, REPLY_FILL, room);
    struct peer_answer answer = peer_message(
        lend(host), seat, lend_bytes(hex), hex_length(hex), reply, room);
    put_text("message ");
    put_number(answer.refusal);
    put_char(' ');
    put_number(answer.count);
    put_char(' ');
    put_hex(reply, answer.count);
    if (spilled(reply, room, answer.count))
        put_text(" spilled");
    put_char('\n');
}

static void do_word(struct host *host, const struct argument *arguments)
{
    host->table[arguments[0].number] = arguments[1].number;
}

/* What a word after the first must be, and what it may be at most: a value, or
   a count of bytes. */
struct place {
    bool hex;
    uint32_t limit;
    const char *over_limit;
};

static const struct place any_number = {false, 0xFFFFFFFF, NULL};
static const struct place room_number = {false, MOST_ROOM, "too long"};
static const struct place index_number = {false, PEER_TABLE_WORDS - 1,
                                          "no such word"};
static const struct place catalogue_hex = {true, MOST_CATALOGUE, "too long"};
static const struct place bytes_hex = {true, MOST_BYTES, "too long"};

struct call {
    const char *name;
    void (*serve)(struct host *host, const struct argument *arguments);
    const struct place *places[MOST_WORDS];
};

static const struct call calls[] = {
    {"catalogue", do_catalogue, {&catalogue_hex}},
    {"connect", do_connect, {&any_number, &any_number}},
    {"open", do_open, {&any_number, &bytes_hex}},
    {"message", do_message, {&any_number, &room_number, &bytes_hex}},
    {"word", do_word, {&index_number, &any_number}},
};

static const struct call *find_call(struct word name)
{
    for (size_t number = 0; number < sizeof calls / sizeof *calls; number++)
        if (word_is(name, calls[number].name))
            return &calls[number];
    return NULL;
}

/* Judges one word: its form, then its limit. Answers the reason, or NULL. */
static const char *judge_word(struct word word, const struct place *place,
                              struct argument *argument)
{
    size_t value;
    if (place->hex) {
        if (!hex_well_formed(word))
            return "bad hex";
        argument->hex = word;
        value = hex_length(word);
    } else {
        if (!read_number(word, &argument->number))
            return "bad number";
        value = argument->number;
    }
    return value > place->limit ? place->over_limit : NULL;
}

/* Serves the call of a line, or answers the reason why it is none. */
static const char *serve_line(struct host *host, struct word name,
                              struct words words)
{
    const struct call *call = find_call(name);
    struct argument arguments[MOST_WORDS] = {{0, {NULL, 0}}};
    struct word word;
    if (call == NULL)
        return "unknown call";
    for (unsigned at = 0; at < MOST_WORDS && call->places[at] != NULL; at++) {
        if (!next_word(&words, &word))
            return "missing word";
        const char *reason =
            judge_word(word, call->places[at], &arguments[at]);
        if (reason != NULL)
            return reason;
    }
    if (next_word(&words, &word))
        return "extra word";
    call->serve(host, arguments);
    return NULL;
}

static void put_error(uint64_t line, const char *reason)
{
    put_text("error ");
    put_number(line);
    put_char(' ');
    put_text(reason);
    put_char('\n');
}

static void serve_file(struct line_reader *reader, struct host *host)
{
    for (uint64_t line = 1; next_line(reader); line++) {
        struct words words = words_of(reader->line, reader->line_length);
        struct word name;
        if (!next_word(&words, &name))
            continue;
        const char *reason = serve_line(host, name, words);
        if (reason != NULL)
            put_error(line, reason);
    }
}

static const char usage[] =
    "usage: peer CALLS-FILE    a line is one of: catalogue HEX | "
    "connect SEAT VERSION | open SEAT HEX | message SEAT ROOM HEX | "
    "word INDEX VALUE (# starts a comment, - is empty HEX)\n";

int main(int argument_count, char **arguments)
{
    static struct host host;
    static struct line_reader reader;
    if (argument_count != 2) {
        complain(usage);
        return EXIT_USAGE;
    }
    reader.name = arguments[1];
    reader.descriptor = open(reader.name, 0);
    if (reader.descriptor < 0)
        fail("cannot open ", reader.name);
    serve_file(&reader, &host);
    flush_output();
    free(reader.line);
    (void)close(reader.descriptor);
    return EXIT_DONE;
}
