/*
 * Bindings. They are planned first, and the message is then made of the plan: a
 * fault of the plan makes bindings that are read well and unfit, a fault of the
 * message's bytes such as are malformed.
 */
#ifndef GENERATE_BINDINGS_H
#define GENERATE_BINDINGS_H

#include "../plain.h"

enum { TYPE_CELL = 0x000C, TYPE_NUMBER = 0x0013 };
enum { MOST_PLAN_COLUMNS = 512 };

struct plan_column {
    uint32_t property, type;
    uint32_t value_used, value_offset, value_size;
    uint32_t status_used, status_offset;
    uint32_t length_used, length_offset;
};

/* The plan of the bindings. */
struct bindings {
    uint32_t handle, width;
    uint32_t column_count;
    struct plan_column columns[MOST_PLAN_COLUMNS];
};

extern struct bindings bindings;

/* Bindings that fit, with a width that is just enough or a little more. */
void plan_bindings(uint32_t handle);

/* More columns than five, all of them read well. */
void plan_many_columns(uint32_t count);

/* Places all spans in a chance order, mostly touching. Answers where the last
   one ends. */
uint32_t lay_out(void);

/* The message of the plan. */
void make_bindings(void);

/* Sets the field that counts the columns' bytes, for the message's length. */
void set_desc(void);

/* Well-formed bindings that are unfit in one way. */
void make_unfit_bindings(uint32_t handle);

/* Bindings that are malformed in one way. */
void make_malformed_bindings(uint32_t handle);

#endif
