/*
 * Messages, and above all requests for rows. A request is planned first: its
 * fields get values that are served, a scene changes some, and then the message
 * is made of them.
 */
#ifndef GENERATE_REQUESTS_H
#define GENERATE_REQUESTS_H

#include "parts.h"

enum {
    DISCONNECT = 0xC9,
    FREE_CURSOR = 0xCB,
    GET_ROWS = 0xCC,
    SET_BINDINGS = 0xD0
};

/* The message that was last made. */
extern struct part message;

/* Its header, for a body to follow. */
void begin_message(uint32_t msg);
void make_free(uint32_t handle);
void make_disconnect(void);

/* The version that the seat's client gave, and 0 for no seat. */
uint32_t version_of(uint32_t seat);

/* The checksum is right where it is tested, and elsewhere anything. */
void seal_for(uint32_t seat);

/* Seals the message and writes its line. Answers the refusal. */
uint32_t send_to(uint32_t seat);

/* The plan of the request for rows. */
struct request {
    uint32_t handle, asked, width, seek_bytes, reserved, read_buffer;
    uint32_t client_base, backward, seek_type, chapter, skip;
};

extern struct request request;

/* Also the greatest base that the read buffer allows. */
uint32_t any_client_base(uint32_t read_buffer);

/* A request that is served, for a cursor whose bindings have this width. */
void plan_rows(uint32_t handle, uint32_t width);

/* One field of the plan out of range: refusal 9. */
void plan_malformed_rows(void);

/* A seek that isn't served, with a body that is well formed: refusal 13. */
void plan_unserved_seek(void);

void make_rows_message(void);

/* After a seek that isn't served, a body may be longer or end at 40 bytes. */
void vary_unserved_body(void);

#endif
