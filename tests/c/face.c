/* Compares libnadrzewie.a with the plain C versions over many inputs: messages of every size near the limits, and catalogues
   that are good, or damaged in each way that the description of the format names. Prints one line for each family and exits
   with 1 at the first difference. */
#include "nadrzewie.h"
#include "plain.h"

int printf(const char *format, ...);
void exit(int status);

enum { ROOM = 1100000 };

static byte made[ROOM];
static byte copy[ROOM];
static u64 state = 88172645463325252u;
static u64 tried, refused;

static u64 chance(void)
{
    state ^= state << 13;
    state ^= state >> 7;
    state ^= state << 17;
    return state;
}

static u64 below(u64 n)
{
    return chance() % n;
}

static void differ(const char *what, u64 size)
{
    printf("face: %s differs at a size of %lu\n", what, size);
    exit(1);
}

static void family(const char *name)
{
    printf("%-28s %7lu tried, %7lu refused\n", name, tried, refused);
    tried = refused = 0;
}

/* ---- messages */

static void message(u64 size)
{
    u64 ours = nadrzewie_checksum(made, size);
    if (ours != plain_checksum(made, size))
        differ("checksum", size);
    tried++;
    refused += ours == 4294967296u;
}

static void messages(void)
{
    for (u64 i = 0; i < ROOM; i++)
        made[i] = (byte)chance();
    for (u64 size = 0; size <= 200; size++)
        message(size);
    for (u64 size = 16284; size <= 16484; size++)
        message(size);
    for (int i = 0; i < 2000; i++) {
        u64 size = below(16500);
        for (u64 k = 0; k < size; k += 1 + below(64))
            made[k] = (byte)chance();
        message(size);
    }
    for (u64 i = 0; i < 16384; i++)
        made[i] = 0xff;
    message(16384);
    family("messages");
}

/* ---- catalogues */

static void check(const byte *bytes, u64 size, int expected)
{
    static u32 places[1024];
    u32 ours = nadrzewie_catalogue_check(bytes, size);
    if (ours != plain_catalogue_check(bytes, size, places))
        differ("catalogue check", size);
    if (expected >= 0 && ours != (u32)expected)
        differ("expected catalogue check", size);
    tried++;
    refused += ours != 0;
}

static u64 put_number(u64 at, u64 v)
{
    for (; v >= 128; v >>= 7)
        made[at++] = (byte)(v % 128 + 128);
    made[at++] = (byte)v;
    return at;
}

static u64 put_text(u64 at, u64 units)
{
    at = put_number(at, units + 1);
    for (u64 i = 0; i < units; i++) {
        u64 unit = 1 + below(65535);
        made[at++] = (byte)unit;
        made[at++] = (byte)(unit >> 8);
    }
    return at;
}

static u64 put_maybe_text(u64 at, u64 most)
{
    return below(4) == 0 ? put_number(at, 0) : put_text(at, below(most + 1));
}

static u64 any_number(void)
{
    return (chance() & 4294967295u) >> below(32);
}

/* a good catalogue of that many rows; the size is returned */
static u64 catalogue(u64 rows, u64 most_units)
{
    u64 at = put_number(0, rows);
    for (u64 i = 0; i < rows; i++) {
        for (int k = 0; k < 3; k++)
            at = put_number(at, any_number());
        at = put_maybe_text(at, most_units);
        at = put_maybe_text(at, most_units);
    }
    return at;
}

static void good(void)
{
    for (int i = 0; i < 300; i++)
        check(made, catalogue(below(40), below(30)), 0);
    check(made, catalogue(1024, 40), 0);
    check(made, catalogue(1024, 0), 0);
    check(made, catalogue(5, 2048), 0);
    check(made, catalogue(0, 0), 0);
    family("good catalogues");
}

/* every cut, one byte more, and every byte changed */
static void damaged(void)
{
    for (int i = 0; i < 60; i++) {
        u64 size = catalogue(1 + below(6), below(12));
        for (u64 cut = 0; cut < size; cut++)
            check(made, cut, 3);
        made[size] = (byte)chance();
        check(made, size + 1, 3);
        for (u64 k = 0; k < size; k++) {
            byte held = made[k];
            made[k] = (byte)chance();
            check(made, size, -1);
            made[k] = held ^ 128;
            check(made, size, -1);
            made[k] = 0;
            check(made, size, -1);
            made[k] = held;
        }
    }
    family("damaged catalogues");
}

static void limits(void)
{
    u64 at;
    /* 1,024 rows and 1,025 */
    check(made, catalogue(1024, 1), 0);
    check(made, catalogue(1025, 1), 3);
    /* 2,048 units and 2,049 */
    for (u64 units = 2047; units <= 2050; units++) {
        at = put_number(0, 1);
        for (int k = 0; k < 3; k++)
            at = put_number(at, 7);
        at = put_text(at, units);
        at = put_number(at, 0);
        check(made, at, units <= 2048 ? 0 : 3);
    }
    /* the largest number and one more, in each place */
    for (int place = 0; place < 3; place++)
        for (u64 v = 4294967294u; v <= 4294967297u; v++) {
            at = put_number(0, 1);
            for (int k = 0; k < 3; k++)
                at = put_number(at, k == place ? v : 7);
            at = put_number(put_number(at, 0), 0);
            check(made, at, v <= 4294967295u ? 0 : 3);
        }
    family("limits");
}

/* each number of a row written one group longer than its shortest form, and a zero unit in each place of a text */
static void forms(void)
{
    static const u64 values[] = {0, 1, 127, 128, 16383, 16384, 4294967295u};
    for (int longer = 0; longer < 6; longer++)
        for (int i = 0; i < 7; i++) {
            u64 numbers[6] = {1, values[i], values[i], values[i], 0, 0}, at = 0;
            for (int k = 0; k < 6; k++) {
                at = put_number(at, numbers[k]);
                if (k == longer) {
                    made[at - 1] |= 128;
                    made[at++] = 0;
                }
            }
            check(made, at, 3);
        }
    for (u64 zero = 0; zero < 40; zero++) {
        u64 at = put_number(put_number(put_number(put_number(0, 1), 1), 1), 1);
        u64 units = put_number(at, 41);
        at = put_text(at, 40);
        at = put_number(at, 0);
        made[units + 2 * zero] = 0;
        made[units + 2 * zero + 1] = 0;
        check(made, at, 3);
        made[units + 2 * zero] = 1;
        check(made, at, 0);
        made[units + 2 * zero] = 0;
        made[units + 2 * zero + 1] = 1;
        check(made, at, 0);
    }
    family("longer forms and zero units");
}

/* the greatest size and those around it: 256 rows with long notes, the last of which fills up to the size wanted */
static void sizes(void)
{
    for (u64 size = 1048570; size <= 1048582; size++) {
        u64 at = put_number(0, 256);
        for (int i = 0; i < 256; i++) {
            int odd = i == 255 && (size - at) % 2 == 1;
            at = put_number(at, odd ? 200 : 100);
            at = put_number(put_number(put_number(at, 1), 1), 0);
            at = put_text(at, i < 255 ? 2048 : (size - at - 2) / 2);
        }
        if (at != size)
            differ("the size made", at);
        check(made, size, size <= 1048576 ? 0 : 3);
    }
    family("sizes near 1,048,576");
}

static void noise(void)
{
    for (int i = 0; i < 20000; i++) {
        u64 size = below(64);
        for (u64 k = 0; k < size; k++)
            copy[k] = (byte)(below(3) == 0 ? chance() : below(6));
        check(copy, size, -1);
    }
    family("noise");
}

int main(void)
{
    messages();
    good();
    damaged();
    limits();
    forms();
    sizes();
    noise();
    return 0;
}
