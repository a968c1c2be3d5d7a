/* Nadrzewie: what a C host calls. libnadrzewie.a holds these functions for x86-64 Linux.

   Nothing is kept between two calls, allocated or blocked on: each call is lent all that it reads and writes. A run of bytes
   or words is a pointer and then the count of its elements (of words, not of their bytes, for the table). For each run:
   - the pointer is never null, also where the count is 0, and a pointer to words is aligned to 4 bytes;
   - `count` elements from it may be read, and where it is not const written; no other thread writes them during the call,
     nor reads those of a run that is not const;
   - it is below 2^63 bytes long.
   Two const runs may overlap or be the same. A run that is not const (the table, the reply) overlaps no other run of its call.
   What the elements hold, and how many there are, is judged by the call: any may come. */
#ifndef NADRZEWIE_H
#define NADRZEWIE_H

#ifdef __cplusplus
extern "C" {
#endif

/* 0 where the bytes are a well-formed option catalogue, else 3. Every length may come, 0 and more than 1,048,576 too. */
unsigned int nadrzewie_catalogue_check(const unsigned char *bytes, unsigned long count);

/* The checksum that a message with these bytes must carry, a number below 2^32; or 4,294,967,296 (2^32) for a message under
   16 or over 16,384 bytes. The message's own checksum field is not read. */
unsigned long nadrzewie_checksum(const unsigned char *message, unsigned long count);

/* The sessions of all eight seats live in a table of so many words of 32 bits, which the host owns. A fresh table is all zero
   words: every seat is unconnected. The host hands the same table to every call and changes no word of it between calls
   (docs/TABLE.md says what the words are). */
#define NADRZEWIE_TABLE_WORDS 17200

/* A message's reply buffer has at least so many bytes. */
#define NADRZEWIE_REPLY_BYTES 16384

/* A seat's number, 0 to 7, and a cursor's handle, 1 or 2: two types, so that neither can stand for the other. */
typedef struct {
    unsigned int number;
} nadrzewie_seat;

typedef struct {
    unsigned int number;
} nadrzewie_handle;

/* Every call below answers the refusal number, else 0. It judges all of the table and of the catalogue first, and a refusal
   leaves the table as it was. The first that applies is given:

    1  the seat is above 7
    2  the table is malformed: another length, or words that break a rule of docs/TABLE.md
    3  the catalogue is malformed, or an open cursor has a row that it doesn't have
    4  the reply buffer is under 16,384 bytes (messages only)
    5  the message is under 16 or over 16,384 bytes
    6  the message's number is not served
    7  connecting: the seat is connected; else: it is not
    8  the checksum is tested and wrong
    9  the message's body is malformed
   10  the handle is not open on this seat
   11  rows are asked for before any bindings
   12  the bindings are unfit, or the row width is not theirs
   13  the seek is not served
   14  both handles of the seat are open
   15  a row is asked for and remains, but the first doesn't fit
   16  the restriction tree is malformed or over a limit */

/* The answer to opening. */
typedef struct {
    unsigned int refusal;    /* the refusal number, else 0 */
    nadrzewie_handle handle; /* of the cursor that was opened; 0 where it is refused */
} nadrzewie_opened;

/* The answer to a message. */
typedef struct {
    unsigned int refusal; /* the refusal number, else 0 */
    unsigned int count;   /* how many bytes of the reply buffer were written, from its first on; the others are unchanged */
} nadrzewie_answered;

/* Connects a seat. Refusals 1, 2, 3, 7.
   table, table_words            the session table: NADRZEWIE_TABLE_WORDS words
   catalogue, catalogue_count    the option catalogue's bytes
   seat                          which seat
   version                       the client's version: from 8 on its requests for rows and bindings must carry their checksum */
unsigned int nadrzewie_connect(unsigned int *table, unsigned long table_words, const unsigned char *catalogue,
                               unsigned long catalogue_count, nadrzewie_seat seat, unsigned int version);

/* Opens a query on a connected seat: a cursor on the rows that the tree selects, at the first of them, without bindings, under
   the lowest free handle. Refusals 1, 2, 3, 7, 14, 16.
   tree, tree_count              the bytes of one restriction tree
   The others are as above. */
nadrzewie_opened nadrzewie_open(unsigned int *table, unsigned long table_words, const unsigned char *catalogue,
                                unsigned long catalogue_count, nadrzewie_seat seat, const unsigned char *tree,
                                unsigned long tree_count);

/* A message from a seat. Every refusal may come but 14 and 16. Refused by 1 to 5 it writes nothing, count 0; by another, a
   header of 16 bytes: the message's number, the refusal's status, zero, zero. Served, it writes
     nothing                                            to a disconnect (0xC9)
     20 bytes, the last word the cursors still open     to free cursor (0xCB)
     as many bytes as the message asks for, the page    to get rows (0xCC)
     16 bytes                                           to set bindings (0xD0)
   message, message_count        the message's bytes, its header first
   reply, reply_count            the reply buffer: NADRZEWIE_REPLY_BYTES bytes or more
   The others are as above. */
nadrzewie_answered nadrzewie_message(unsigned int *table, unsigned long table_words, const unsigned char *catalogue,
                                     unsigned long catalogue_count, nadrzewie_seat seat, const unsigned char *message,
                                     unsigned long message_count, unsigned char *reply, unsigned long reply_count);

#ifdef __cplusplus
}
#endif

#endif
