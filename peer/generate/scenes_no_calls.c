/*
 * Lines that are no calls, for every reason of an error line, also several at
 * once, where the order decides. They change nothing.
 */
#include "scenes.h"
#include "chance.h"
#include "lines.h"

static const char *const unknown_calls[] = {
    "Connect 0 5",  "conn 0 5",          "open0 -",
    "catalog 00",   "words 0 0",         "-",
    "0",            "connect: 0 5",      "message,0,16384,-",
    "OPEN",         "error 1 bad hex",   "connect\v0 5",
};
static const char *const missing_words[] = {
    "connect",      "connect 1",       "open",
    "open 0",       "message",         "message 0",
    "word",         "message 0 16384", "word 5",
    "catalogue",    "open 0 # -",      "catalogue#00",
    "connect 0 \r", "message 8 20000", "word 17199",
};
static const char *const bad_numbers[] = {
    "connect x 5",
    "connect 1 -1",
    "connect 0 4294967296",
    "connect 0 0x5",
    "connect +1 5",
    "connect x",
    "connect 1,5",
    "connect 99999999999999999999999999999999999999 1",
    "connect 0 18446744073709551616",
    "connect 0 00000000000000000004294967296",
    "open 1x 00",
    "open - 00",
    "open x zz",
    "word 99999999999 1",
    "word 1 4294967296",
    "word 4294967296 1",
    "word x",
    "word 1 2,3",
    "message 0 1e3 00",
    "message 0 16384. 00",
    "message x 20001 zz",
};
static const char *const bad_hex[] = {
    "open 0 ABC",         "open 0 0G",          "open 0 --",
    "open 0 -00",         "open 0 00-",         "open 0 0G extra",
    "open 9 @A",          "open 0 `a",          "message 0 16384 zz",
    "message 0 16384 0",  "message 0 0 /0",     "message 0 20000 0:",
    "catalogue 0x00",     "catalogue 0",        "catalogue 0000g0",
    "catalogue --",
};
static const char *const too_long[] = {
    "message 0 20001 -",
    "message 0 20001",
    "message 0 20001 zz",
    "message 0 4294967295 - -",
    "message 4294967295 20001 -",
};
static const char *const no_such_words[] = {
    "word 17200 1", "word 17200", "word 17201 x", "word 4294967295 0 0",
};
static const char *const extra_words[] = {
    "connect 0 5 6",       "open 0 - -",  "message 0 16384 - x",
    "word 0 0 0",          "catalogue 00 00", "connect 0 5 \t x",
    "open 0 - 00# -",      "catalogue - -",
};

static const struct {
    const char *const *lines;
    uint32_t count;
} no_calls[] = {
    {unknown_calls, sizeof unknown_calls / sizeof *unknown_calls},
    {missing_words, sizeof missing_words / sizeof *missing_words},
    {bad_numbers, sizeof bad_numbers / sizeof *bad_numbers},
    {bad_hex, sizeof bad_hex / sizeof *bad_hex},
    {too_long, sizeof too_long / sizeof *too_long},
    {no_such_words, sizeof no_such_words / sizeof *no_such_words},
    {extra_words, sizeof extra_words / sizeof *extra_words},
};

/* Bytes that are too many for the program: as HEX, or with a digit wrong. */
static void put_too_long(const char *call, uint32_t bytes)
{
    put_text(call);
    for (uint32_t byte = 0; byte < bytes; byte++)
        put_text("00");
    put_text((const char *[]){"", "", "0", "0g", " x"}[below(5)]);
}

void scene_no_call(void)
{
    for (uint32_t count = between(1, 2); count > 0; count--) {
        uint32_t reason = below(sizeof no_calls / sizeof *no_calls);
        line_count++;
        if (percent(1))
            put_too_long("catalogue ", MOST_CATALOGUE + between(1, 2));
        else if (percent(2))
            put_too_long("open 0 ", MOST_BYTES + between(1, 2));
        else if (percent(2))
            put_too_long("message 0 16384 ", MOST_BYTES + between(1, 2));
        else
            put_text(no_calls[reason].lines[below(no_calls[reason].count)]);
        put_char('\n');
    }
}
