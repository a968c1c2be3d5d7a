/*
 * Catalogues: their rows, by chance, and their bytes, right or with a fault.
 * Trees ask for what the rows hold, and pages are measured by it, so the rows
 * are kept.
 */
#ifndef GENERATE_CATALOGUES_H
#define GENERATE_CATALOGUES_H

#include "parts.h"

enum { POOL_UNITS = 40000, MOST_CONTENTS_ROWS = 1025 };

struct text {
    bool present;
    uint32_t first, units;
};

struct row {
    uint32_t numbers[3];
    struct text texts[2];
};

/* The rows of a catalogue. Texts are parts of one pool of units. */
struct contents {
    uint32_t row_count;
    uint32_t pool_used;
    struct row rows[MOST_CONTENTS_ROWS];
    uint16_t pool[POOL_UNITS];
};

/* The rows of the catalogue lent at present (but for a damaged one). */
extern struct contents contents;

/* The bytes of the catalogue that was last written, damaged ones too. */
extern struct part catalogue_part;

/* What rows are made of. */
const char *any_word(void);
uint32_t any_number(void);

/* A unit other than zero, often one whose bytes are easily mistaken. */
uint16_t any_unit(void);

/* Rows of a chance count and kind. */
void make_catalogue(struct contents *rows);

/* Rows up to a count, as long as they stay within so many bytes. */
void make_rows(struct contents *rows, uint32_t row_count, uint32_t budget,
               uint32_t most_units);

/* Writes the contents, and lends them by a line. */
void lend_contents(void);

/* Lends the good catalogue again. A cursor opened meanwhile may hold rows that
   it hasn't: then one with all the rows there can be. */
void lend_again(void);

/* The good catalogue's rows written with one fault. */
void make_damaged_catalogue(void);

/* More rows than a catalogue may have, or the good one's rows with more units
   in a text than it may have. */
void make_excessive_catalogue(void);

#endif
