/*
 * Scenes: each writes a few lines with one purpose, and leaves a session that
 * any other scene can follow. Those of each file are listed together; main.c
 * has the weight of each.
 */
#ifndef GENERATE_SCENES_H
#define GENERATE_SCENES_H

/* scenes_served.c: plain sessions. */
void scene_connect(void);
void scene_open(void);
void scene_any_tree(void);
void scene_leaf(void);
void scene_limit_tree(void);
void scene_empty_selection(void);
void scene_pages(void);
void scene_small_pages(void);
void scene_zero_rows(void);
void scene_after_end(void);
void scene_tight_page(void);
void scene_rebind(void);
void scene_free(void);
void scene_disconnect(void);
void scene_new_catalogue(void);
void scene_rewind(void);
void scene_host_opens(void);

/* scenes_1_to_5.c: refusals 1 to 5. */
void scene_seat_above_7(void);
void scene_table_fault(void);
void scene_same_word(void);
void scene_row_number_fault(void);
void scene_catalogue_fault(void);
void scene_shorter_catalogue(void);
void scene_both_wrong(void);
void scene_room(void);
void scene_room_edge(void);
void scene_size(void);
void scene_longest_message(void);

/* Also there: one or two calls that don't look at the state. */
void any_calls(void);

/* scenes_6_to_16.c: refusals 6 to 16. */
void scene_unserved_message(void);
void scene_connection(void);
void scene_checksum(void);
void scene_malformed_bindings(void);
void scene_malformed_rows(void);
void scene_malformed_short(void);
void scene_handle(void);
void scene_no_bindings(void);
void scene_unfit_bindings(void);
void scene_width_differs(void);
void scene_seek(void);
void scene_both_open(void);
void scene_tree_fault(void);
void scene_empty_tree(void);
void scene_long_tree(void);
void scene_several_faults(void);

/* scenes_no_calls.c: lines that are no calls. */
void scene_no_call(void);

#endif
