/*
 * Restriction trees: trees that are served, up to every limit, and trees with a
 * fault. They ask for numbers and phrases that the lent catalogue has, so that
 * a selection is seldom all rows or none.
 */
#ifndef GENERATE_TREES_H
#define GENERATE_TREES_H

#include "parts.h"

/* The types of a node. */
enum { AND = 1, OR = 2, NOT = 3, CONTENT = 4, PROPERTY = 5 };

/* The tree that was last made. */
extern struct part tree;

/* Each of these makes the tree anew: one of any form that is served; one that
   most rows satisfy; one that none satisfies; one at a limit that is still
   served; one with phrases of 64 units and a last of so many, where 42 make the
   greatest length; one with a fault. */
void make_any_tree(void);
void make_broad_tree(void);
void make_empty_selection_tree(void);
void make_limit_tree(void);
void make_tree_bytes(uint32_t last_units);
void make_damaged_tree(void);

/* Each of these adds to the tree, which is cleared first: the head of a node; a
   relation; a chance relation or phrase. */
void add_node(uint32_t kind);
void add_relation(uint32_t relation, uint32_t property, uint32_t value);
void add_leaf(void);

#endif
