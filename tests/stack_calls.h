/*
 * Calls made on a stack of their own (stack.c paints it and looks how far down they came), each with what it is lent and told and what it
 * answers: none of that stands on the stack.
 */
#ifndef STACK_CALLS_H
#define STACK_CALLS_H

#include <inttypes.h>
#include <stdio.h>
#include <stdlib.h>
#include <ucontext.h>

#include "../bindings/c/pairing.h"

#define MOST PAIRING_MOST_VERTICES

static unsigned char stack[4 * PAIRING_STACK_RUN];
static ucontext_t here, there;

static uint8_t rack[PAIRING_RACK_BYTES], space[PAIRING_RECORD_SPACE];
static char text[PAIRING_TEXT_LIMIT + 1];
static uint32_t words[MOST / 2];
static size_t len, text_len, space_len, count;
static uint32_t n, growth, top, code, a, b;
static int32_t at_level;
static uint32_t number, yes, mate, linked, standing, falls, pairs;
static uint64_t draws;
static int32_t level;
static size_t line, length;

static void call_nothing(void)
{
}

static void call_make(void)
{
    number = pairing_make(rack, len, n);
}

static void call_make_with(void)
{
    number = pairing_make_with(rack, len, n, growth, top);
}

static void call_audit(void)
{
    number = pairing_audit(rack, len, &yes);
}

static void call_level(void)
{
    number = pairing_level(rack, len, a, &level);
}

static void call_mate(void)
{
    number = pairing_mate(rack, len, a, &mate);
}

static void call_linked(void)
{
    number = pairing_linked(rack, len, a, b, &linked);
}

static void call_roster(void)
{
    number = pairing_roster(rack, len, at_level, &standing);
}

static void call_change(void)
{
    number = pairing_change(rack, len, code, a, b, words, count, &draws, &falls, &pairs);
}

static void call_run(void)
{
    number = pairing_run(rack, len, (const uint8_t *)text, text_len, space, space_len, &line, &length);
}

/* Makes a call on the painted stack. */
static void on_stack(void (*call)(void))
{
    getcontext(&there);
    there.uc_stack.ss_sp = stack;
    there.uc_stack.ss_size = sizeof stack;
    there.uc_link = &here;
    makecontext(&there, call, 0);
    swapcontext(&here, &there);
}

/* What a figure must be. */
static void same(const char *what, uint32_t got, uint32_t wanted)
{
    if (got == wanted)
        return;
    printf("stack: %s: %" PRIu32 ", wanted %" PRIu32 "\n", what, got, wanted);
    exit(1);
}

/* A call that must come to this number. */
static void expect(void (*call)(void), uint32_t wanted)
{
    number = UINT32_MAX;
    on_stack(call);
    same("the number of a call", number, wanted);
}

#endif
