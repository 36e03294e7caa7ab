/*
 * The worked example of document 01 by the calls of the core: five changes on a rack of 4 boards, then all levels, mates, links and rosters,
 * and the audit, at last of a damaged rack; then the same changes as a trace text, run to its record, and the text with a line that doesn't fit.
 * Then a rack of base 2, by the calls and as a trace text, and settings that no rack can have. It prints what example.out holds.
 *
 * cc -std=c99 -o example example.c DIRECTORY/libpairing.a
 */
#include <inttypes.h>
#include <stdio.h>
#include <string.h>

#include "pairing.h"

#define BOARDS 4

static uint8_t rack[PAIRING_RACK_BYTES];
static uint8_t space[PAIRING_RECORD_SPACE];

/* The trace of document 01. */
static const char trace[] =
    "(rack (boards 4))\n"
    "(add (0 1) (draws 0 0))\n"
    "(add (1 2) (draws 0 0))\n"
    "(add (2 3) (draws 0 0))\n"
    "(drop (0 1) (draws 0 0))\n"
    "(add (2 3) (draws 0 0))\n";

/* A trace whose line 1 names the settings of base 2, and one that asks for a growth that no rack can have. */
static const char base_2[] =
    "(rack (boards 4) (growth 2) (top 3))\n"
    "(add (0 1) (draws 0))\n"
    "(add (0 2) (draws 0))\n"
    "(add (0 3) (draws))\n"
    "(drop (0 1) (draws 0))\n";
static const char base_9[] = "(rack (boards 4) (growth 9) (top 3))\n";

static void change(uint32_t code, uint32_t a, uint32_t b)
{
    const uint32_t words[] = {0, 0};
    uint64_t draws;
    uint32_t falls, pairs;
    uint32_t number = pairing_change(rack, sizeof rack, code, a, b, words, 2, &draws, &falls, &pairs);

    printf("%s %" PRIu32 "-%" PRIu32 ": ", code == PAIRING_ADD ? "add" : "drop", a, b);
    if (number == PAIRING_OK)
        printf("draws %" PRIu64 ", falls %" PRIu32 ", pairs %" PRIu32 "\n", draws, falls, pairs);
    else
        printf("refused %" PRIu32 "\n", number);
}

static void board(uint32_t v)
{
    int32_t level;
    uint32_t mate;
    uint32_t number = pairing_level(rack, sizeof rack, v, &level);

    if (number == PAIRING_OK)
        number = pairing_mate(rack, sizeof rack, v, &mate);
    if (number != PAIRING_OK)
        printf("board %" PRIu32 ": number %" PRIu32 "\n", v, number);
    else if (mate == PAIRING_FREE)
        printf("board %" PRIu32 ": level %" PRId32 ", idle\n", v, level);
    else
        printf("board %" PRIu32 ": level %" PRId32 ", mate %" PRIu32 "\n", v, level, mate);
}

static void links(void)
{
    uint32_t v, w, linked;

    for (v = 0; v < BOARDS; v++)
        for (w = v + 1; w < BOARDS; w++)
            if (pairing_linked(rack, sizeof rack, v, w, &linked) == PAIRING_OK && linked == 1)
                printf("link %" PRIu32 "-%" PRIu32 "\n", v, w);
}

/* How many boards stand at a level, and who, from its roster. */
static void roster(int32_t level)
{
    const uint8_t *bytes = rack + PAIRING_ROSTERS + PAIRING_ROSTER_BYTES * (level + 1);
    uint32_t v, count;
    uint32_t number = pairing_roster(rack, sizeof rack, level, &count);

    if (number != PAIRING_OK) {
        printf("level %" PRId32 ": number %" PRIu32 "\n", level, number);
        return;
    }
    printf("level %" PRId32 ": boards %" PRIu32 "%s", level, count, count == 0 ? "" : ":");
    for (v = 0; v < BOARDS; v++)
        if (bytes[v / 8] >> v % 8 & 1)
            printf(" %" PRIu32, v);
    printf("\n");
}

static void audit(void)
{
    uint32_t yes;
    uint32_t number = pairing_audit(rack, sizeof rack, &yes);

    if (number == PAIRING_OK)
        printf("audit: %s\n", yes == 1 ? "yes" : "no");
    else
        printf("audit: number %" PRIu32 "\n", number);
}

/* Prints what the program for traces prints. */
static void run(const char *text, size_t text_len)
{
    size_t line, length;
    uint32_t number = pairing_run(rack, sizeof rack, (const uint8_t *)text, text_len, space, sizeof space, &line, &length);

    if (number == PAIRING_OK)
        fwrite(space, 1, length, stdout);
    else
        printf("(bad %" PRIu32 " %zu)\n", number, line);
}

static void make_with(uint32_t growth, uint32_t top)
{
    uint32_t number = pairing_make_with(rack, sizeof rack, BOARDS, growth, top);

    printf("make with growth %" PRIu32 ", top level %" PRIu32 ": number %" PRIu32 "\n", growth, top, number);
}

/* The changes of the trace of base 2: board 0 needs two neighbours below level 1 to rise there. It draws board 1; when that link goes, two are
 * left below, of which it draws board 2, and board 1 falls twice. */
static void base_two(void)
{
    int32_t level;

    make_with(2, 3);
    change(PAIRING_ADD, 0, 1);
    change(PAIRING_ADD, 0, 2);
    change(PAIRING_ADD, 0, 3);
    change(PAIRING_DROP, 0, 1);
    for (level = -1; level <= rack[PAIRING_TOP_AT]; level++)
        roster(level);
    audit();
    make_with(2, PAIRING_MOST_TOP + 1);
    printf("the rack keeps growth %d and top level %d\n", rack[PAIRING_GROWTH_AT], rack[PAIRING_TOP_AT]);
    run(base_2, strlen(base_2));
    run(base_9, strlen(base_9));
}

int main(void)
{
    uint32_t v;
    int32_t level;

    audit();
    printf("make: number %" PRIu32 "\n", pairing_make(rack, sizeof rack, BOARDS));
    change(PAIRING_ADD, 0, 1);
    change(PAIRING_ADD, 1, 2);
    change(PAIRING_ADD, 2, 3);
    change(PAIRING_DROP, 0, 1);
    change(PAIRING_ADD, 2, 3);
    for (v = 0; v <= BOARDS; v++)
        board(v);
    links();
    for (level = -1; level <= 3; level++)
        roster(level);
    audit();
    rack[PAIRING_GROWTH_AT] = PAIRING_LEAST_GROWTH - 1;
    audit();
    board(0);
    roster(0);
    run(trace, strlen(trace));
    audit();
    run(trace, strlen(trace) - 1);
    base_two();
    return 0;
}
