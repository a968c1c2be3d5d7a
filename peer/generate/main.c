/*
 * generate SEED SIZE: writes a file of recorded calls to standard output, about
 * SIZE lines of calls. The same two numbers give the same file.
 *
 * Sessions with many pages are mixed with faults of every kind that the paper
 * of exact rules names. The generator keeps its own copy of the session table
 * and serves each call it writes with the library of server.c, so it knows the
 * present value of every word of the table: a word that is set wrong can be set
 * back, and a message can be made to fit its cursor exactly.
 *
 * The files, each of which uses only those before it: chance, lines, parts,
 * catalogues, trees, requests, bindings, session, and the scenes. A scene
 * writes a few lines with one purpose; the table below lists them all with
 * their weights.
 */
#include "catalogues.h"
#include "chance.h"
#include "lines.h"
#include "scenes.h"
#include "session.h"

static const struct {
    uint32_t weight;
    void (*play)(void);
} scenes[] = {
    {80, scene_connect},
    {90, scene_open},
    {50, scene_any_tree},
    {50, scene_leaf},
    {25, scene_limit_tree},
    {20, scene_empty_selection},
    {200, scene_pages},
    {90, scene_small_pages},
    {30, scene_zero_rows},
    {20, scene_after_end},
    {220, scene_tight_page},
    {50, scene_rebind},
    {70, scene_free},
    {30, scene_disconnect},
    {30, scene_new_catalogue},
    {25, scene_rewind},
    {12, scene_host_opens},
    {32, scene_seat_above_7},
    {120, scene_table_fault},
    {24, scene_row_number_fault},
    {56, scene_catalogue_fault},
    {16, scene_shorter_catalogue},
    {50, scene_room},
    {16, scene_room_edge},
    {55, scene_size},
    {15, scene_longest_message},
    {55, scene_unserved_message},
    {48, scene_connection},
    {48, scene_checksum},
    {64, scene_malformed_bindings},
    {64, scene_malformed_rows},
    {32, scene_malformed_short},
    {56, scene_handle},
    {40, scene_no_bindings},
    {96, scene_unfit_bindings},
    {24, scene_width_differs},
    {80, scene_seek},
    {45, scene_both_open},
    {104, scene_tree_fault},
    {3, scene_empty_tree},
    {2, scene_long_tree},
    {40, scene_several_faults},
    {8, scene_both_wrong},
    {50, scene_no_call},
    {8, scene_same_word},
};

static void play_any_scene(void)
{
    uint32_t total = 0;
    for (size_t scene = 0; scene < sizeof scenes / sizeof *scenes; scene++)
        total += scenes[scene].weight;
    uint32_t at = below(total);
    size_t scene = 0;
    for (; at >= scenes[scene].weight; scene++)
        at -= scenes[scene].weight;
    scenes[scene].play();
}

/* The first lines: at times calls before any catalogue, then a session. */
static void begin_file(void)
{
    if (percent(10))
        any_calls();
    make_catalogue(&contents);
    lend_contents();
    for (uint32_t seats = between(1, 3); seats > 0; seats--)
        (void)connect_a_seat();
    bind_cursor(need_rows());
}

static bool read_argument(const char *text, uint64_t *number)
{
    *number = 0;
    if (*text == '\0')
        return false;
    for (; *text != '\0'; text++) {
        if (*text < '0' || *text > '9' || *number > 100000000000000000)
            return false;
        *number = 10 * *number + (uint64_t)(*text - '0');
    }
    return true;
}

int main(int argument_count, char **arguments)
{
    static const char usage[] = "usage: generate SEED SIZE    two numbers: "
                                "which file, and about how many calls\n";
    uint64_t seed, size;
    if (argument_count != 3 || !read_argument(arguments[1], &seed) ||
        !read_argument(arguments[2], &size)) {
        write_out(2, usage, sizeof usage - 1);
        return 2;
    }
    seed_chance(seed);
    begin_file();
    while (line_count < size)
        play_any_scene();
    flush_output();
    return 0;
}
