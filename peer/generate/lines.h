/*
 * The lines of the file, and the session as they leave it: each call that is
 * written is also served, by the library of server.c, on a table of the
 * generator's own. So the present value of every word of it is known.
 */
#ifndef GENERATE_LINES_H
#define GENERATE_LINES_H

#include "../server.h"

/* The most bytes of a catalogue, and of a tree, a message or a reply buffer,
   that a line may have; and a room that is enough for every message. */
enum { MOST_CATALOGUE = 32768, MOST_BYTES = 20000, USUAL_ROOM = 16384 };

/* The session table after the lines so far. */
extern uint32_t table[PEER_TABLE_WORDS];

/* The lines of calls so far. */
extern uint32_t line_count;

/* Each writes a line and serves it. Those with an answer answer its refusal. */
void call_catalogue(const uint8_t *bytes, size_t length);
uint32_t call_connect(uint32_t seat, uint32_t version);
uint32_t call_open(uint32_t seat, const uint8_t *tree, size_t length);
uint32_t call_message(uint32_t seat, uint32_t room, const uint8_t *bytes,
                      size_t length);
void call_word(uint32_t index, uint32_t value);

/* 2 or 3 where every call is now refused so, else 4, without a line. */
uint32_t state_refusal(void);

/* For lines that are no calls. */
void put_char(char c);
void put_text(const char *text);

/* Sends what was put and is still held back. */
void flush_output(void);

/* To a descriptor at once. */
void write_out(int descriptor, const char *from, size_t length);

#endif
