/*
 * The trace texts that stack.c runs, and a repeatable source of numbers for them and for words.
 */
#ifndef STACK_TEXT_H
#define STACK_TEXT_H

#include <string.h>

#include "stack_calls.h"

/* A repeatable source of numbers. */
static uint32_t below(uint32_t k)
{
    static uint64_t state = 1;

    state = state * 6364136223846793005u + 1442695040888963407u;
    return (uint32_t)(state >> 33) % k;
}

/* A trace text on so many vertices, as long as can be, in which edges among a few of them come and go. Every second change has words for pairs among
 * those few alone, which suffice but may be too few to be sure of. Line 1 names growth and top level, unless the growth is 0. */
static void write_trace(uint32_t vertices, uint32_t few)
{
    static uint8_t present[MOST][MOST];
    char next[2 * MOST];
    uint32_t v, w, k, line;
    int size;

    memset(present, 0, sizeof present);
    text_len = (size_t)sprintf(text, "(rack (boards %" PRIu32 ")", vertices);
    if (growth != 0)
        text_len += (size_t)sprintf(text + text_len, " (growth %" PRIu32 ") (top %" PRIu32 ")", growth, top);
    text_len += (size_t)sprintf(text + text_len, ")\n");
    for (line = 0;; line++) {
        v = below(few - 1);
        w = v + 1 + below(few - 1 - v);
        size = sprintf(next, "(%s (%" PRIu32 " %" PRIu32 ") (draws", present[v][w] ? "drop" : "add", v, w);
        for (k = 0; k < (line % 2 ? vertices : few) / 2; k++)
            size += sprintf(next + size, " %" PRIu32, below(10));
        size += sprintf(next + size, "))\n");
        if (text_len + (size_t)size > PAIRING_TEXT_LIMIT)
            return;
        memcpy(text + text_len, next, (size_t)size);
        text_len += (size_t)size;
        present[v][w] ^= 1;
    }
}

#endif
