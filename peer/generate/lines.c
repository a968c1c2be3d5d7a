/*
 * The lines of the file: a few in a hundred are written in an unusual way that
 * means the same, so that the reading of lines is tested too. What a line does
 * to the session is done here as well, so that the two can't drift apart.
 */
#include "lines.h"
#include "chance.h"

/* ------------------------------------------------------------------------ */
/* Writing                                                                  */
/* ------------------------------------------------------------------------ */

static char output[65536];
static size_t output_length;

void write_out(int descriptor, const char *from, size_t length)
{
    while (length > 0) {
        long written = write(descriptor, from, length);
        if (written <= 0)
            exit(1);
        from += written;
        length -= (size_t)written;
    }
}

void flush_output(void)
{
    write_out(1, output, output_length);
    output_length = 0;
}

void put_char(char c)
{
    if (output_length == sizeof output)
        flush_output();
    output[output_length++] = c;
}

void put_text(const char *text)
{
    while (*text != '\0')
        put_char(*text++);
}

static void put_number(uint32_t number)
{
    char digits[10];
    unsigned count = 0;
    do {
        digits[count++] = (char)('0' + number % 10);
        number /= 10;
    } while (number > 0);
    while (count > 0)
        put_char(digits[--count]);
}

static void put_hex(const uint8_t *bytes, size_t length, bool lower)
{
    const char *digits = lower ? "0123456789abcdef" : "0123456789ABCDEF";
    if (length == 0)
        put_char('-');
    for (size_t place = 0; place < length; place++) {
        put_char(digits[bytes[place] >> 4]);
        put_char(digits[bytes[place] & 0x0F]);
    }
}

/* ------------------------------------------------------------------------ */
/* Lines                                                                    */
/* ------------------------------------------------------------------------ */

uint32_t line_count;

/* Whether the present line is written in an unusual way that means the same. */
static bool line_odd;

static void put_gap(void)
{
    put_text(line_odd ? (const char *[]){" ", "  ", "\t", " \t", "\r ",
                                         " \r\t"}[below(6)]
                      : " ");
}

static void begin_line(const char *call)
{
    line_count++;
    line_odd = percent(4);
    if (line_odd)
        put_text((const char *[]){"", " ", "\t", "\n", "# a comment\n",
                                  "  # connect 0 5\n", " \r\n"}[below(7)]);
    put_text(call);
}

static void put_number_word(uint32_t number)
{
    put_gap();
    if (line_odd && percent(30))
        put_text((const char *[]){"0", "00", "0000000000000"}[below(3)]);
    put_number(number);
}

static void put_hex_word(const uint8_t *bytes, size_t length)
{
    put_gap();
    put_hex(bytes, length, line_odd && percent(50));
}

static void end_line(void)
{
    if (line_odd)
        put_text((const char *[]){"", " ", "\r", "\t \r", " # a comment",
                                  "#glued", "#", " #  00 # 00"}[below(8)]);
    put_char('\n');
}

/* ------------------------------------------------------------------------ */
/* The session as it stands, and the calls that change it                   */
/* ------------------------------------------------------------------------ */

uint32_t table[PEER_TABLE_WORDS];
static uint8_t lent_catalogue[MOST_CATALOGUE];
static size_t lent_length;
static uint8_t reply[MOST_BYTES];

static struct peer_lent lent(void)
{
    return (struct peer_lent){table, PEER_TABLE_WORDS, lent_catalogue,
                              lent_length};
}

void call_catalogue(const uint8_t *bytes, size_t length)
{
    begin_line("catalogue");
    put_hex_word(bytes, length);
    end_line();
    memcpy(lent_catalogue, bytes, length);
    lent_length = length;
}

uint32_t call_connect(uint32_t seat, uint32_t version)
{
    begin_line("connect");
    put_number_word(seat);
    put_number_word(version);
    end_line();
    return peer_connect(lent(), (struct peer_seat){seat}, version);
}

uint32_t call_open(uint32_t seat, const uint8_t *tree, size_t length)
{
    begin_line("open");
    put_number_word(seat);
    put_hex_word(tree, length);
    end_line();
    return peer_open(lent(), (struct peer_seat){seat}, tree, length).refusal;
}

uint32_t call_message(uint32_t seat, uint32_t room, const uint8_t *bytes,
                             size_t length)
{
    begin_line("message");
    put_number_word(seat);
    put_number_word(room);
    put_hex_word(bytes, length);
    end_line();
    return peer_message(lent(), (struct peer_seat){seat}, bytes, length, reply,
                        room)
        .refusal;
}

void call_word(uint32_t index, uint32_t value)
{
    begin_line("word");
    put_number_word(index);
    put_number_word(value);
    end_line();
    table[index] = value;
}

uint32_t state_refusal(void)
{
    return peer_message(lent(), (struct peer_seat){0}, reply, 0, reply, 0)
        .refusal;
}
