/*
 * How much stack each call takes. The calls are made on a stack of their own that was painted before, many times and on demanding inputs; the
 * deepest byte that has lost its paint tells how far down any of them came. What the call of an empty function comes to is taken off. Prints
 * a table; more than the header says is a failure.
 *
 * With LD_BIND_NOT=1 the loader looks for a function of the C library whenever it is called, and not the first time alone, so that what the
 * loader needs is counted too.
 */
#define _XOPEN_SOURCE 600

#include <string.h>

#include "stack_calls.h"
#include "stack_text.h"

#define ALL_EDGES (MOST * (MOST - 1) / 2)
#define PAINT 0xa5

/* The rack of 256 vertices with all edges. */
static uint8_t densest[PAIRING_RACK_BYTES];

static void nothing(void)
{
    on_stack(call_nothing);
}

static void make(void)
{
    n = 0;
    expect(call_make, PAIRING_BAD_VERTEX_COUNT);
    n = MOST;
    expect(call_make, PAIRING_OK);
    len--;
    expect(call_make, PAIRING_BAD_LENGTH);
}

/* A rack of every setting, and the settings next to their ranges. */
static void make_with(void)
{
    int fits;

    n = MOST;
    for (growth = PAIRING_LEAST_GROWTH - 1; growth <= PAIRING_MOST_GROWTH + 1; growth++)
        for (top = 0; top <= PAIRING_MOST_TOP + 1; top++) {
            fits = PAIRING_LEAST_GROWTH <= growth && growth <= PAIRING_MOST_GROWTH && top <= PAIRING_MOST_TOP;
            expect(call_make_with, fits ? PAIRING_OK : PAIRING_BAD_SETTING);
        }
    n = 0;
    expect(call_make_with, PAIRING_BAD_VERTEX_COUNT);
    len--;
    expect(call_make_with, PAIRING_BAD_LENGTH);
}

/* A change with random words. */
static void expect_change(uint32_t its_code, uint32_t v, uint32_t w, uint32_t wanted)
{
    size_t at;

    code = its_code;
    a = v;
    b = w;
    for (at = 0; at < count; at++)
        words[at] = below(UINT32_MAX);
    expect(call_change, wanted);
}

/* All edges among 256 vertices come in a scattered order to a rack of these settings, which is then the densest. */
static void make_densest(uint32_t its_growth, uint32_t its_top)
{
    static uint32_t lower[ALL_EDGES], upper[ALL_EDGES];
    uint32_t v, w, k, edge = 0;

    for (v = 0; v < MOST; v++)
        for (w = v + 1; w < MOST; w++, edge++) {
            lower[edge] = v;
            upper[edge] = w;
        }
    count = MOST / 2;
    pairing_make_with(rack, len, MOST, its_growth, its_top);
    for (k = 0; k < ALL_EDGES; k++) {
        /* 7,919 has no divisor in common with the number of edges, so that each edge comes once. */
        edge = k * 7919 % ALL_EDGES;
        expect_change(PAIRING_ADD, lower[edge], upper[edge], PAIRING_OK);
    }
    memcpy(densest, rack, sizeof rack);
}

/* The pair of each vertex of the densest rack goes, round after round, so that others fall and rise, every second time with fewer words than a
 * change may need, so that the old bytes are kept aside. */
static void part_pairs(void)
{
    uint32_t v, w, k, drawing = 0, falling = 0;

    for (k = 0; k < 8 * MOST; k++) {
        v = k % MOST;
        count = k % 2 ? MOST / 2 : MOST / 4;
        if (pairing_mate(rack, len, v, &w) == PAIRING_OK && w != PAIRING_FREE) {
            expect_change(PAIRING_DROP, v, w, PAIRING_OK);
            drawing += draws != 0;
            falling += falls != 0;
        }
    }
    same("whether drops draw and fall", drawing != 0 && falling != 0, 1);
}

/* Both on racks of base 2, of one level alone, and of the short form's settings; then one change for each number. */
static void change(void)
{
    uint32_t w;

    make_densest(2, PAIRING_MOST_TOP);
    part_pairs();
    make_densest(PAIRING_MOST_GROWTH, 0);
    part_pairs();
    make_densest(PAIRING_SHORT_GROWTH, PAIRING_SHORT_TOP);
    part_pairs();
    memcpy(rack, densest, sizeof rack);
    expect_change(0, 0, 1, PAIRING_BAD_CODE);
    expect_change(PAIRING_ADD, 0, MOST, PAIRING_NO_VERTEX);
    expect_change(PAIRING_ADD, 0, 0, PAIRING_SAME_VERTEX);
    expect_change(PAIRING_ADD, 0, 1, PAIRING_EDGE_PRESENT);
    expect_change(PAIRING_DROP, 0, 1, PAIRING_OK);
    expect_change(PAIRING_DROP, 0, 1, PAIRING_EDGE_ABSENT);
    count = 0;
    pairing_mate(rack, len, 2, &w);
    expect_change(PAIRING_DROP, 2, w, PAIRING_TOO_FEW_WORDS);
    rack[PAIRING_GROWTH_AT] = PAIRING_LEAST_GROWTH - 1;
    expect_change(PAIRING_ADD, 0, 1, PAIRING_UNSOUND);
    len--;
    expect_change(PAIRING_ADD, 0, 1, PAIRING_BAD_LENGTH);
}

static void audit(void)
{
    expect(call_audit, PAIRING_OK);
    same("the audit of the densest rack", yes, 1);
    rack[PAIRING_ROSTERS - 1] ^= 1;
    expect(call_audit, PAIRING_OK);
    same("the audit of it with a bit of a row turned", yes, 0);
    rack[PAIRING_ROSTERS - 1] ^= 1;
    rack[sizeof rack - 1] ^= 1;
    expect(call_audit, PAIRING_OK);
    same("the audit of it with a bit of a roster turned", yes, 0);
    len--;
    expect(call_audit, PAIRING_BAD_LENGTH);
}

/* What the queries on vertices have in common: one on each vertex of the densest rack, and one for each number. */
static void (*asked)(void);

static void query(void)
{
    for (a = 0; a < MOST; a++) {
        b = (a + 1) % MOST;
        expect(asked, PAIRING_OK);
    }
    a = MOST;
    expect(asked, PAIRING_NO_VERTEX);
    rack[PAIRING_GROWTH_AT] = PAIRING_LEAST_GROWTH - 1;
    expect(asked, PAIRING_UNSOUND);
    len--;
    expect(asked, PAIRING_BAD_LENGTH);
}

/* The vertices at each level of the densest rack, at levels that there aren't, and one query for each number. */
static void roster(void)
{
    static const int32_t none[] = {INT32_MIN, -3, -2, 4, 5, 255, INT32_MAX};
    uint32_t all = 0;
    size_t k;

    for (at_level = -1; at_level <= 3; at_level++) {
        expect(call_roster, PAIRING_OK);
        all += standing;
    }
    same("the vertices at all levels", all, MOST);
    for (k = 0; k < sizeof none / sizeof *none; k++) {
        at_level = none[k];
        expect(call_roster, PAIRING_OK);
        same("the vertices at no level", standing, 0);
    }
    rack[sizeof rack - 1] ^= 1;
    expect(call_roster, PAIRING_UNSOUND);
    len--;
    expect(call_roster, PAIRING_BAD_LENGTH);
}

/* The run of a trace text, all of whose changes are accepted. */
static void expect_run(uint32_t vertices, uint32_t few)
{
    write_trace(vertices, few);
    memset(space, 0, sizeof space);
    expect(call_run, PAIRING_OK);
    same("whether a change was made", strstr((char *)space, "(done ") != NULL, 1);
    same("whether a change was refused", strstr((char *)space, "(refused ") != NULL, 0);
}

static void run(void)
{
    uint32_t few;

    for (few = 4; few <= 40; few++) {
        growth = 0;
        expect_run(few, few);
        expect_run(MOST, few);
        growth = PAIRING_LEAST_GROWTH + few % 7;
        top = few % 4;
        expect_run(few, few);
        expect_run(MOST, few);
    }
    text_len--;
    expect(call_run, PAIRING_BAD_LINE);
    text_len = (size_t)sprintf(text, "(rack (boards 1) (growth 9) (top 3))\n");
    expect(call_run, PAIRING_BAD_SETTING);
    text_len = (size_t)sprintf(text, "(rack (boards 0))\n");
    expect(call_run, PAIRING_BAD_VERTEX_COUNT);
    space_len--;
    expect(call_run, PAIRING_SHORT_SPACE);
    text_len = sizeof text;
    expect(call_run, PAIRING_LONG_TEXT);
    len--;
    expect(call_run, PAIRING_BAD_LENGTH);
}

/* The bytes from the top of the stack to the deepest that some calls touch. */
static size_t depth(void (*calls)(void))
{
    size_t at = 0;

    memcpy(rack, densest, sizeof rack);
    len = sizeof rack;
    space_len = sizeof space;
    count = MOST / 2;
    memset(stack, PAINT, sizeof stack);
    calls();
    while (at < sizeof stack && stack[at] == PAINT)
        at++;
    return sizeof stack - at;
}

int main(void)
{
    /* The changes come first: they make the densest rack. */
    static const struct {
        const char *name;
        void (*calls)(void);
        void (*asked)(void);
        size_t limit;
    } parts[] = {
        {"change", change, NULL, PAIRING_STACK_CHANGE},
        {"make", make, NULL, PAIRING_STACK_CALL},
        {"make_with", make_with, NULL, PAIRING_STACK_CALL},
        {"audit", audit, NULL, PAIRING_STACK_CALL},
        {"level", query, call_level, PAIRING_STACK_CALL},
        {"mate", query, call_mate, PAIRING_STACK_CALL},
        {"linked", query, call_linked, PAIRING_STACK_CALL},
        {"roster", roster, NULL, PAIRING_STACK_CALL},
        {"run", run, NULL, PAIRING_STACK_RUN},
    };
    size_t empty = depth(nothing), used, k;
    int within = 1;

    for (k = 0; k < sizeof parts / sizeof *parts; k++) {
        asked = parts[k].asked;
        used = depth(parts[k].calls) - empty;
        /* A call that takes none wasn't made there. */
        within = within && used > 0 && used <= parts[k].limit;
        printf("stack of pairing_%-9s %6zu bytes, at most %zu\n", parts[k].name, used, parts[k].limit);
    }
    printf("the stack: %s what the header says\n", within ? "within" : "NOT within");
    return within ? 0 : 1;
}
