/*
 * For scripts/stack: how far down its stack each function of include/nd110.h writes. Each is called on a stack of its
 * own, painted before; the answer is the distance from the stack pointer at the call to the lowest byte that changed.
 */
#include "nd110.h"
#include <stdio.h>
#include <stdlib.h>
#include <string.h>
#include <ucontext.h>

#define PAINT 0xa5
#define WORDS(a) (sizeof(a) / sizeof((a)[0]))
#define LENT(a) ND110_LENT((a), WORDS(a))

static unsigned char stack[1 << 16];
static unsigned char *from;
static ucontext_t here, there;

static uint16_t state[ND110_STATE_WORDS];
static nd110_state record;
static uint16_t memory[4 * ND110_PAGE_WORDS], tables[ND110_TABLE_WORDS];
static uint16_t out[WORDS(memory) + ND110_IMAGE_EXTRA];
static uint16_t narrow[ND110_SHORT_WORDS], wide[ND110_LONG_WORDS];
static const uint64_t at[4] = { 0, 0, 1, 1 };
static const uint16_t what[4] = { 10, ND110_TICK, ND110_TYPED + 'A', ND110_READ_OUT };
static uint16_t told[4];
static uint16_t interrupt, reason, character, answer;
static uint64_t steps, handed, references;

/* The stack pointer of the caller, right before the call. */
#define CALL(call)                                       \
    do {                                                 \
        __asm__ volatile("mov %%rsp, %0" : "=r"(from)); \
        answer = (call);                                 \
    } while (0)

static void do_step(void) { CALL(nd110_step(LENT(state), LENT(memory), LENT(tables), &interrupt)); }
static void do_step_lent(void) { CALL(nd110_step_lent(&record, LENT(memory), LENT(tables), &interrupt)); }
static void do_run(void)
{
    CALL(nd110_run(LENT(state), LENT(memory), LENT(tables), 100, &steps, &reason, &references));
}
static void do_to(void)
{
    CALL(nd110_run_to_interrupt(LENT(state), LENT(memory), LENT(tables), 100, &steps, &reason, &references));
}
static void do_raise(void) { CALL(nd110_raise(LENT(state), 10, LENT(memory), LENT(tables))); }
static void do_raise_lent(void) { CALL(nd110_raise_lent(&record, 10, LENT(memory), LENT(tables))); }
static void do_tick(void) { CALL(nd110_tick(LENT(state), LENT(memory), LENT(tables))); }
static void do_type(void) { CALL(nd110_type(LENT(state), 'A', LENT(memory), LENT(tables))); }
static void do_read_out(void) { CALL(nd110_read_out(LENT(state), LENT(memory), LENT(tables), &character)); }
static void do_with_input(void)
{
    CALL(nd110_run_with_input(LENT(state), LENT(memory), LENT(tables), 100, at, 4, what, 4, told, 4, &handed, &steps,
                              &reason, &references));
}
static void do_load(void) { CALL(nd110_load(LENT(state), LENT(out), LENT(memory), LENT(tables))); }
static void do_write(void) { CALL(nd110_write(LENT(state), LENT(memory), LENT(tables), LENT(out))); }
static void do_view(void) { CALL(nd110_view(ND110_MEMORY, 0, 8, LENT(memory), LENT(tables), LENT(out))); }
static void do_view_answer(void) { CALL(nd110_view_answer(ND110_MEMORY, 0, 8, LENT(memory), LENT(tables))); }
static void do_short_to_long(void) { CALL(nd110_short_to_long(0040240, 0, LENT(wide))); }
static void do_long_to_short(void) { CALL(nd110_long_to_short(0040002, 0140000, 0, LENT(narrow))); }

/* Level 1 on ring 2 with paging on, page n at page n, everything permitted to ring 2. A shift of A and D, SRB of level
 * 3 to address 1024, LRB of it, STF, MON 1, WAIT. The record is the same state. */
static void fill(void)
{
    static const uint16_t program[] = { 0155601, 0152432, 0152630, 0030010, 0153001, 0151000 };
    memset(state, 0, sizeof(state));
    memset(memory, 0, sizeof(memory));
    memcpy(memory, program, sizeof(program));
    for (size_t i = 0; i < WORDS(tables); i++)
        tables[i] = (uint16_t)(0162000 | i % 4);
    state[ND110_CONTROL(ND110_CONTROL_LEVEL)] = 1;
    state[ND110_CONTROL(ND110_PAGING_ON)] = 1;
    state[ND110_CONTROL(ND110_PCR) + 1] = 2;
    state[ND110_REGISTER(1, ND110_X)] = 1024;
    memcpy(&record, state, sizeof(record));
}

static void expect(const char *name, int as_expected)
{
    if (!as_expected) {
        fprintf(stderr, "stack: %s is not as expected\n", name);
        exit(1);
    }
}

static void show(const char *name, void (*call)(void))
{
    memset(stack, PAINT, sizeof(stack));
    getcontext(&there);
    there.uc_stack.ss_sp = stack;
    there.uc_stack.ss_size = sizeof(stack);
    there.uc_link = &here;
    makecontext(&there, call, 0);
    swapcontext(&here, &there);
    unsigned char *lowest = stack;
    while (*lowest == PAINT)
        lowest++;
    expect(name, answer == ND110_DONE);
    printf("%s %td\n", name, from - lowest);
}

int main(void)
{
    fill();
    state[ND110_REGISTER(1, ND110_P)] = 1; /* SRB */
    show("nd110_step", do_step);
    expect("SRB", interrupt == 0 && state[ND110_REGISTER(1, ND110_P)] == 2);
    fill();
    record.registers[1][ND110_P] = 1;
    show("nd110_step_lent", do_step_lent);
    expect("SRB on a record", interrupt == 0 && record.registers[1][ND110_P] == 2);
    fill();
    show("nd110_run", do_run);
    expect("the run", steps == 6 && reason == ND110_STOPPED);
    fill();
    show("nd110_run_to_interrupt", do_to);
    expect("the run to MON", steps == 5 && reason == ND110_INTERRUPTED);
    fill();
    show("nd110_run_with_input", do_with_input);
    expect("the run with input", steps == 5 && reason == ND110_INTERRUPTED && handed == 4);
    fill();
    show("nd110_raise", do_raise);
    show("nd110_raise_lent", do_raise_lent);
    show("nd110_tick", do_tick);
    show("nd110_type", do_type);
    show("nd110_read_out", do_read_out);
    show("nd110_write", do_write);
    show("nd110_load", do_load);
    show("nd110_view", do_view);
    show("nd110_view_answer", do_view_answer);
    show("nd110_short_to_long", do_short_to_long);
    show("nd110_long_to_short", do_long_to_short);
    return 0;
}
