/*
 * The pairing core: a fully dynamic maximal matching on up to 256 vertices, kept in 10,152 bytes that the caller lends.
 *
 * Document 01 calls a vertex a board, an edge a link, and the bytes a rack; a vertex without a mate is free ("idle").
 *
 * Every function gives a number: 0 if it ran, or the first reason that fits for which it was turned back. Turned back, it writes nothing
 * lent, and every other figure is 0. All figures are written at each call. What is lent to one call may not overlap. A length is in elements:
 * bytes of the rack, of a text or of a record space, or words. If it is 0, nothing is read or written through the pointer before it, which may
 * then be any, null too; no other pointer may be null.
 */
#ifndef PAIRING_H
#define PAIRING_H

#include <stddef.h>
#include <stdint.h>

#ifdef __cplusplus
extern "C" {
#endif

/* The length of a rack in bytes; any alignment will do. */
#define PAIRING_RACK_BYTES 10152

/*
 * Who stands at a level, without asking for each vertex: vertex v does if bit v mod 8 (bit 0 lowest) of byte v div 8 is set in that level's
 * roster, the PAIRING_ROSTER_BYTES bytes of the rack from PAIRING_ROSTERS + PAIRING_ROSTER_BYTES * (level + 1) on. Every rack has five rosters,
 * for levels -1 to 3; those above its top level are empty. The calls keep the rosters; a display only reads them.
 */
#define PAIRING_ROSTERS 9992
#define PAIRING_ROSTER_BYTES 32

/* The most vertices. */
#define PAIRING_MOST_VERTICES 256

/*
 * The settings that a rack is made with. A vertex below level j has to rise there once so many of its neighbours stand below that level as its
 * threshold says, which is the growth to the power j; no vertex rises above the top level. The short form, pairing_make or a trace text whose
 * line 1 names no settings, gives growth 4 and top level 3.
 */
#define PAIRING_LEAST_GROWTH 2
#define PAIRING_MOST_GROWTH 8
#define PAIRING_MOST_TOP 3 /* The least top level is 0. */
#define PAIRING_SHORT_GROWTH 4
#define PAIRING_SHORT_TOP 3

/* The bytes of a rack that hold its growth and its top level. No call changes them but those that make a rack. */
#define PAIRING_GROWTH_AT 4
#define PAIRING_TOP_AT 5

/* The most bytes of a trace text, and the least of a record space: a record of any such text fits. */
#define PAIRING_TEXT_LIMIT 16384
#define PAIRING_RECORD_SPACE 65536

/*
 * The stack in bytes that a call needs beside its caller's own: most of it for the running of a trace text. Measured with a margin, and held to
 * by a test (tests/stack.c); no proof bounds it.
 */
#define PAIRING_STACK_RUN 81920    /* pairing_run */
#define PAIRING_STACK_CHANGE 20480 /* pairing_change, which may keep the rack's bytes aside */
#define PAIRING_STACK_CALL 8192    /* every other call */

/* The mate of a free vertex. */
#define PAIRING_FREE 65535

/* The change codes. */
#define PAIRING_ADD 1
#define PAIRING_DROP 2

/* The numbers. 2 to 4 are met only by the running of a trace text. */
#define PAIRING_OK 0
#define PAIRING_BAD_LENGTH 1       /* The rack buffer isn't 10,152 bytes. */
#define PAIRING_LONG_TEXT 2        /* The trace text is over 16,384 bytes. */
#define PAIRING_SHORT_SPACE 3      /* The record space is under 65,536 bytes. */
#define PAIRING_BAD_LINE 4         /* The trace text doesn't fit the grammar. */
#define PAIRING_BAD_VERTEX_COUNT 5 /* The number of vertices asked for isn't 1 to 256. */
#define PAIRING_UNSOUND 6          /* The rack isn't sound. */
#define PAIRING_BAD_CODE 7         /* The change code is neither 1 nor 2. */
#define PAIRING_NO_VERTEX 8        /* A vertex named is n or more. */
#define PAIRING_SAME_VERTEX 9      /* The two vertices named are the same. */
#define PAIRING_EDGE_PRESENT 10    /* An edge to add is there already. */
#define PAIRING_EDGE_ABSENT 11     /* An edge to drop isn't there. */
#define PAIRING_TOO_FEW_WORDS 12   /* The change runs out of words: it needs more than are lent. */
#define PAIRING_BAD_SETTING 13     /* The growth asked for isn't 2 to 8, or the top level isn't 0 to 3. Looked at just after 5. */

/*
 * Makes the buffer a rack of n vertices without edges, with the short form's settings: growth 4 and top level 3. Its bytes may hold anything
 * before.
 * Numbers: 0, 1, 5.
 */
uint32_t pairing_make(uint8_t *rack, size_t len, uint32_t n);

/*
 * The same with a growth from 2 to 8 and a top level from 0 to 3.
 * Numbers: 0, 1, 5, 13.
 */
uint32_t pairing_make_with(uint8_t *rack, size_t len, uint32_t n, uint32_t growth, uint32_t top);

/*
 * Whether the bytes are a sound rack: *yes is 1 or 0.
 * Numbers: 0, 1.
 */
uint32_t pairing_audit(const uint8_t *rack, size_t len, uint32_t *yes);

/*
 * The level of vertex v, -1 to the rack's top level.
 * Numbers: 0, 1, 6, 8.
 */
uint32_t pairing_level(const uint8_t *rack, size_t len, uint32_t v, int32_t *level);

/*
 * The mate of vertex v, PAIRING_FREE if it has none.
 * Numbers: 0, 1, 6, 8.
 */
uint32_t pairing_mate(const uint8_t *rack, size_t len, uint32_t v, uint32_t *mate);

/*
 * Whether there is an edge v-w: *linked is 1 or 0.
 * Numbers: 0, 1, 6, 8, 9.
 */
uint32_t pairing_linked(const uint8_t *rack, size_t len, uint32_t v, uint32_t w, uint32_t *linked);

/*
 * The number of vertices at a level, 0 for a level outside -1 to 3, and for one above the rack's top level, where no vertex stands. Who they are
 * is in the level's roster (PAIRING_ROSTERS).
 * Numbers: 0, 1, 6.
 */
uint32_t pairing_roster(const uint8_t *rack, size_t len, int32_t level, uint32_t *count);

/*
 * Adds (code 1) or drops (code 2) the edge a-b and mends the matching. The words decide which neighbours are drawn: of k neighbours, a word
 * below the largest multiple of k that is at most 2^32 chooses the one at place word mod k, and any other word is passed over. The first *draws
 * words are used, those passed over among them: a figure of 64 bits, since no call limits how many words are lent. *falls is the number of moves
 * down by one level, *pairs the number of pairs then held. A change that needs more words than are lent is number 12, and the rack keeps its bytes.
 * Numbers: 0, 1, 6 to 12.
 */
uint32_t pairing_change(uint8_t *rack, size_t len, uint32_t code, uint32_t a, uint32_t b, const uint32_t *words, size_t count, uint64_t *draws,
                        uint32_t *falls, uint32_t *pairs);

/*
 * Runs a trace text: makes the rack that its line 1 asks for in the buffer, whatever its bytes hold before, makes the changes of the further
 * lines on it, and writes the record into the space. Line 1 is `(rack (boards N))`, or names the settings too:
 * `(rack (boards N) (growth G) (top T))`; the record repeats it as it stands. The whole text is read before anything is written. A change that is
 * refused (8 to 12) is a line of the record and ends nothing. The record's last line is `(end (pairs P) (mean Q R))`: the pairs then held, and
 * twice the edges as Q times n plus R, R below n. *length is the record's length; the bytes of the space past it keep their values. *line is the
 * first line that doesn't fit, counted from 1, if the number is 4, and otherwise 0. A text of no bytes sets no rack: unless the number is 1 or 3,
 * it is 0, the record is the line `(end (pairs 0))`, 16 bytes with its line feed, and the buffer keeps its bytes.
 * Numbers: 0 to 5 and 13.
 */
uint32_t pairing_run(uint8_t *rack, size_t len, const uint8_t *text, size_t text_len, uint8_t *space, size_t space_len, size_t *line,
                     size_t *length);

#ifdef __cplusplus
}
#endif

#endif
