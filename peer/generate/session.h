/*
 * The session's state as the table has it, and steps that lead to a state: a
 * scene asks for what it needs, a bound cursor for instance, and the lines that
 * are still missing are written first.
 */
#ifndef GENERATE_SESSION_H
#define GENERATE_SESSION_H

#include "../plain.h"

/* A cursor of a seat: the handle is 1 or 2. */
struct place {
    uint32_t seat, handle;
};

/* The first word of a seat and of a cursor in the table. */
uint32_t seat_word(uint32_t seat);
uint32_t cursor_word(struct place at);
const uint32_t *cursor_of(struct place at);

bool is_connected(uint32_t seat);
bool is_open(struct place at);
bool is_closed(struct place at);
bool is_bound(struct place at);
bool has_rows(struct place at);
bool is_bound_with_rows(struct place at);

/* The rows of the selection that no page has carried. */
uint32_t remaining(struct place at);

/* A chance cursor of those that a test accepts. */
bool find_cursor(bool (*accepts)(struct place), struct place *found);

/* A chance seat that is connected, or that is not; 8 where there is none. */
uint32_t find_seat(bool connected);

uint32_t any_version(void);

/* Connects a seat that is not connected: there must be one. */
uint32_t connect_a_seat(void);
struct place open_a_cursor(void);
void bind_cursor(struct place at);
void free_cursor(struct place at);

/* Each of these finds what it names, or writes the lines that make it: a
   connected seat; a connected seat's handle that is free; an open cursor, one
   without bindings, one with rows remaining (if the catalogue has any), one
   with bindings. */
uint32_t need_connected(void);
struct place need_closed(void);
struct place need_open(void);
struct place need_unbound(void);
struct place need_rows(void);
struct place need_bound(void);

/* A plain request for the cursor as it is bound. */
void plan_page(struct place at);

#endif
