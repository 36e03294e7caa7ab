/*
 * Empty slices: a length of 0 with a null pointer, or one to where nothing may be read or written. Each call is made so with each of its slices,
 * and with all at once; it must be turned back with the number that fits, every figure 0, and leave what else is lent as it was. Only a text of no
 * bytes is taken, if the rest that is lent is in order, and no words for a change that draws nothing.
 */
#include <inttypes.h>
#include <stdio.h>
#include <stdlib.h>
#include <string.h>

#include "../bindings/c/pairing.h"

#define UNWRITTEN 77

static uint8_t rack[PAIRING_RACK_BYTES], space[PAIRING_RECORD_SPACE];
static uint8_t rack_before[PAIRING_RACK_BYTES], space_before[PAIRING_RECORD_SPACE];
static unsigned calls;

static void same(const char *what, uint64_t got, uint64_t wanted)
{
    if (got == wanted)
        return;
    printf("empty: %s: %" PRIu64 ", wanted %" PRIu64 "\n", what, got, wanted);
    exit(1);
}

/* The number of a call and one of its figures, and that the bytes stay. */
static void refused(uint32_t number, uint32_t wanted, uint64_t figure)
{
    calls++;
    same("number", number, wanted);
    same("figure", figure, 0);
    same("rack", memcmp(rack, rack_before, sizeof rack) == 0, 1);
    same("space", memcmp(space, space_before, sizeof space) == 0, 1);
}

static void change(uint8_t *bytes, size_t len, const uint32_t *words, size_t count, uint32_t wanted)
{
    uint64_t draws = UINT64_MAX;
    uint32_t falls = UNWRITTEN, pairs = UNWRITTEN;
    uint32_t number = pairing_change(bytes, len, PAIRING_ADD, 2, 3, words, count, &draws, &falls, &pairs);

    same("draws", draws, 0);
    same("falls", falls, 0);
    refused(number, wanted, pairs);
}

static void run(uint8_t *bytes, size_t len, const uint8_t *text, size_t text_len, uint8_t *room, size_t room_len, uint32_t wanted)
{
    size_t line = UNWRITTEN, length = UNWRITTEN;
    uint32_t number = pairing_run(bytes, len, text, text_len, room, room_len, &line, &length);

    same("line", line, 0);
    refused(number, wanted, length);
}

/* No words for the drop of a pair with no other edge, which draws nothing: it is made. Then the rack is as it was again. */
static void wordless(const uint32_t *words)
{
    uint64_t draws = UINT64_MAX;
    uint32_t falls = UNWRITTEN, pairs = UNWRITTEN;

    calls++;
    same("number without words", pairing_change(rack, sizeof rack, PAIRING_DROP, 0, 1, words, 0, &draws, &falls, &pairs), PAIRING_OK);
    same("its draws", draws, 0);
    same("its falls", falls, 2);
    same("its pairs", pairs, 0);
    memcpy(rack, rack_before, sizeof rack);
}

/* The text of no bytes: its record, with the bytes past it and the rack as they were. */
static void blank(const uint8_t *text)
{
    static const char record[] = "(end (pairs 0))\n";
    const size_t size = sizeof record - 1;
    size_t line = UNWRITTEN, length = UNWRITTEN;

    calls++;
    same("number of a blank paper", pairing_run(rack, sizeof rack, text, 0, space, sizeof space, &line, &length), PAIRING_OK);
    same("its line", line, 0);
    same("its length", length, size);
    same("its record", memcmp(space, record, size) == 0, 1);
    same("its space past the record", memcmp(space + size, space_before + size, sizeof space - size) == 0, 1);
    same("its rack", memcmp(rack, rack_before, sizeof rack) == 0, 1);
    memcpy(space, space_before, size);
}

static void with(void *any)
{
    static const uint8_t text[] = "(rack (boards 4))\n";
    static const uint32_t words[] = {0, 0};
    uint32_t number, yes = UNWRITTEN, mate = UNWRITTEN, linked = UNWRITTEN, standing = UNWRITTEN;
    int32_t level = UNWRITTEN;

    refused(pairing_make(any, 0, 4), PAIRING_BAD_LENGTH, 0);
    refused(pairing_make_with(any, 0, 4, 2, 3), PAIRING_BAD_LENGTH, 0);
    number = pairing_audit(any, 0, &yes);
    refused(number, PAIRING_BAD_LENGTH, yes);
    number = pairing_level(any, 0, 0, &level);
    refused(number, PAIRING_BAD_LENGTH, (uint64_t)level);
    number = pairing_mate(any, 0, 0, &mate);
    refused(number, PAIRING_BAD_LENGTH, mate);
    number = pairing_linked(any, 0, 0, 1, &linked);
    refused(number, PAIRING_BAD_LENGTH, linked);
    number = pairing_roster(any, 0, -1, &standing);
    refused(number, PAIRING_BAD_LENGTH, standing);
    change(any, 0, words, 2, PAIRING_BAD_LENGTH);
    change(rack, sizeof rack, any, 0, PAIRING_TOO_FEW_WORDS);
    change(any, 0, any, 0, PAIRING_BAD_LENGTH);
    wordless(any);
    run(any, 0, text, sizeof text - 1, space, sizeof space, PAIRING_BAD_LENGTH);
    blank(any);
    run(rack, sizeof rack, any, 0, space, sizeof space - 1, PAIRING_SHORT_SPACE);
    run(rack, sizeof rack, text, sizeof text - 1, any, 0, PAIRING_SHORT_SPACE);
    run(any, 0, any, 0, any, 0, PAIRING_BAD_LENGTH);
}

int main(void)
{
    const uintptr_t pointers[] = {0, 1, UINTPTR_MAX / 2, UINTPTR_MAX};
    const uint32_t words[] = {0, 0};
    uint64_t draws;
    uint32_t falls, pairs;
    size_t k;

    same("make", pairing_make(rack, sizeof rack, 4), PAIRING_OK);
    same("change", pairing_change(rack, sizeof rack, PAIRING_ADD, 0, 1, words, 2, &draws, &falls, &pairs), PAIRING_OK);
    memset(space, UNWRITTEN, sizeof space);
    memcpy(rack_before, rack, sizeof rack);
    memcpy(space_before, space, sizeof space);
    for (k = 0; k < sizeof pointers / sizeof *pointers; k++)
        with((void *)pointers[k]);
    printf("empty slices with any pointer: %u calls answered as stated\n", calls);
    return 0;
}
