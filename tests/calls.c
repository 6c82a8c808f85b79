/*
 * Every function of include/nd110.h called through the archive, with arguments that cannot be taken for one another:
 * state, memory, page tables, image and output have different lengths, and the answers tell the numbers apart. What
 * must come is written by hand from document 01, of console and clock from document 02, card 1, with document 000, of a
 * paging fault that is held from card 3, of extended mode and the largest memory from card 4, of memory references from
 * card 7, of the conversions from card 12. rust/nd110/tests/calls.rs is the same through the Rust crate, with
 * devices.rs, held.rs, extended.rs, largest.rs and references.rs beside it.
 */
#include "nd110.h"
#include <stdio.h>
#include <stdlib.h>
#include <string.h>

#define WORDS(a) (sizeof(a) / sizeof((a)[0]))
#define MEMORY_WORDS 2048
#define IMAGE_WORDS (MEMORY_WORDS + ND110_IMAGE_EXTRA)
#define GUARD 0125252

/* The lent words, each with a word before and after it that no call may touch. */
struct machine {
    uint16_t before_state, state[ND110_STATE_WORDS], after_state;
    uint16_t before_record;
    nd110_state record;
    uint16_t after_record;
    uint16_t before_memory, memory[MEMORY_WORDS], after_memory;
    uint16_t before_tables, tables[ND110_TABLE_WORDS], after_tables;
    uint16_t before_out, out[IMAGE_WORDS + 1], after_out;
};
static struct machine m;

#define STATE m.state, WORDS(m.state)
#define RECORD ND110_WORDS(&m.record)
#define MEMORY m.memory, WORDS(m.memory)
#define TABLES m.tables, WORDS(m.tables)
#define OUT m.out, WORDS(m.out)
#define NO_INPUT NULL, 0, NULL, 0, NULL, 0
#define RAN &steps[1], &reason[1], &references[1]
#define TOLD &handed[1], RAN

/* Where the rest of an answer is told. A number that is written in a wrong width shows in the words beside it. */
static uint16_t interrupt[5], reason[5], character[5];
static uint64_t steps[3], handed[3], references[3];

/* What references are filled with: all 64 bits, so that one that is written in 32 shows too. */
#define UNTOLD UINT64_MAX

static int failures;

static void is(int line, const char *what, unsigned long long got, unsigned long long want)
{
    if (got != want) {
        printf("calls.c:%d: %s is %llu, not %llu\n", line, what, got, want);
        failures++;
    }
}
#define IS(got, want) is(__LINE__, #got, (got), (want))

/* Words that are all 0 but for those named; of two for one place the last holds. */
struct word {
    size_t at;
    uint16_t value;
};

static void words_are(int line, const char *what, const uint16_t *got, size_t len, const struct word *named,
                      size_t count)
{
    for (size_t i = 0; i < len; i++) {
        uint16_t want = 0;
        for (size_t k = 0; k < count; k++)
            if (named[k].at == i)
                want = named[k].value;
        if (got[i] != want) {
            printf("calls.c:%d: word %zu of %s is %06o, not %06o\n", line, i, what, (unsigned)got[i], (unsigned)want);
            failures++;
        }
    }
}
#define ARE(lent, ...)                                                                               \
    words_are(__LINE__, #lent, (lent), WORDS(lent), (const struct word[]){ __VA_ARGS__ },            \
              sizeof((const struct word[]){ __VA_ARGS__ }) / sizeof(struct word))

/* The program, from address 0: SAA 5; AAA 3; MON 7; a word that is no instruction; WAIT; one that is not executed. */
static const uint16_t program[] = { 0170405, 0172403, 0153007, 0160000, 0151000, 0123456 };
#define PROGRAM                                                                                      \
    { 0, 0170405 }, { 1, 0172403 }, { 2, 0153007 }, { 3, 0160000 }, { 4, 0151000 }, { 5, 0123456 }

/* Its image: five entries (kind, start, length), then the bodies: the program; A of level 2; PIE; IIE, which has
 * interrupt 4; and two page table words. */
static const uint16_t image[] = {
    5,
    1, 0, 0, 0, 6,
    2, 0, 21, 0, 1,
    3, 0, 5, 0, 1,
    3, 0, 8, 0, 1,
    4, 0, 3, 0, 2,
    0170405, 0172403, 0153007, 0160000, 0151000, 0123456,
    000321,
    010000,
    000020,
    0111111, 022222,
};
#define IMAGE image, WORDS(image)

enum {
    A_0 = ND110_REGISTER(0, ND110_A),
    D_0 = ND110_REGISTER(0, ND110_D),
    P_0 = ND110_REGISTER(0, ND110_P),
    B_0 = ND110_REGISTER(0, ND110_B),
    T_0 = ND110_REGISTER(0, ND110_T),
    X_0 = ND110_REGISTER(0, ND110_X),
    A_2 = ND110_REGISTER(2, ND110_A),
    T_14 = ND110_REGISTER(14, ND110_T),
    LEVEL = ND110_CONTROL(ND110_CONTROL_LEVEL),
    ION = ND110_CONTROL(ND110_INTERRUPTS_ON),
    PAGING = ND110_CONTROL(ND110_PAGING_ON),
    STOPPED = ND110_CONTROL(ND110_IS_STOPPED),
    PID = ND110_CONTROL(ND110_PID),
    PIE = ND110_CONTROL(ND110_PIE),
    IID = ND110_CONTROL(ND110_IID),
    IIE = ND110_CONTROL(ND110_IIE),
    PGS = ND110_CONTROL(ND110_PGS),
    PCR_0 = ND110_CONTROL(ND110_PCR),
    HELD = ND110_CONTROL(ND110_PGS_HELD),
    EXTENDED = ND110_CONTROL(ND110_EXTENDED),
    DEVICES = ND110_DEVICE(0)
};

/* Where a word is, by document 01 and not by the header. */
static void places(void)
{
    IS(D_0, 1);
    IS(P_0, 2);
    IS(B_0, 3);
    IS(A_0, 5);
    IS(T_0, 6);
    IS(X_0, 7);
    IS(A_2, 21);
    IS(T_14, 118);
    IS(LEVEL, 128);
    IS(ION, 129);
    IS(PAGING, 130);
    IS(STOPPED, 131);
    IS(PID, 132);
    IS(PIE, 133);
    IS(ND110_CONTROL(ND110_PVL), 134);
    IS(IID, 135);
    IS(IIE, 136);
    IS(PGS, 137);
    IS(PCR_0, 138);
    IS(PCR_0 + 15, 153);
    IS(HELD, 154);
    IS(EXTENDED, 155);
    IS(DEVICES, 156);
    IS(ND110_DEVICE(ND110_CLOCK_ENABLED), 156);
    IS(ND110_DEVICE(ND110_CLOCK_READY), 157);
    IS(ND110_DEVICE(ND110_CLOCK_ASKS), 158);
    IS(ND110_DEVICE(ND110_INPUT_ENABLED), 159);
    IS(ND110_DEVICE(ND110_INPUT_UNREAD), 160);
    IS(ND110_DEVICE(ND110_INPUT_ASKS), 161);
    IS(ND110_DEVICE(ND110_INPUT_CHARACTER), 162);
    IS(ND110_DEVICE(ND110_INPUT_LENGTH), 163);
    IS(ND110_DEVICE(ND110_OUTPUT_ENABLED), 164);
    IS(ND110_DEVICE(ND110_OUTPUT_WAITS), 165);
    IS(ND110_DEVICE(ND110_OUTPUT_ASKS), 166);
    IS(ND110_DEVICE(ND110_OUTPUT_CHARACTER), 167);
    IS(ND110_STATE_WORDS, 168);
    IS(ND110_TABLE_WORDS, 512);
    IS(ND110_MEMORY_MOST, 16777216);
    IS(ND110_IMAGE_EXTRA, 706);
    IS(ND110_VERSION, 6);
    IS(ND110_UNREAD, 11);
    IS(ND110_TICK, 256);
    IS(ND110_READ_OUT, 257);
    IS(ND110_TYPED, 512);
    IS(ND110_NO_CHARACTER, 256);
}

/* Where a field of the record is, by document 01 too: two bytes a word. */
static void fields(void)
{
    IS(sizeof(nd110_state), 2 * 168);
    IS(offsetof(nd110_state, registers[0][0]), 2 * 0);
    IS(offsetof(nd110_state, registers[0][7]), 2 * 7);
    IS(offsetof(nd110_state, registers[2][5]), 2 * 21);
    IS(offsetof(nd110_state, registers[14][6]), 2 * 118);
    IS(offsetof(nd110_state, registers[15][7]), 2 * 127);
    IS(offsetof(nd110_state, level), 2 * 128);
    IS(offsetof(nd110_state, interrupts_on), 2 * 129);
    IS(offsetof(nd110_state, paging_on), 2 * 130);
    IS(offsetof(nd110_state, stopped), 2 * 131);
    IS(offsetof(nd110_state, pid), 2 * 132);
    IS(offsetof(nd110_state, pie), 2 * 133);
    IS(offsetof(nd110_state, pvl), 2 * 134);
    IS(offsetof(nd110_state, iid), 2 * 135);
    IS(offsetof(nd110_state, iie), 2 * 136);
    IS(offsetof(nd110_state, pgs), 2 * 137);
    IS(offsetof(nd110_state, pcr[0]), 2 * 138);
    IS(offsetof(nd110_state, pcr[15]), 2 * 153);
    IS(offsetof(nd110_state, pgs_held), 2 * 154);
    IS(offsetof(nd110_state, extended), 2 * 155);
    IS(offsetof(nd110_state, clock_enabled), 2 * 156);
    IS(offsetof(nd110_state, clock_ready), 2 * 157);
    IS(offsetof(nd110_state, clock_asks), 2 * 158);
    IS(offsetof(nd110_state, input_enabled), 2 * 159);
    IS(offsetof(nd110_state, input_unread), 2 * 160);
    IS(offsetof(nd110_state, input_asks), 2 * 161);
    IS(offsetof(nd110_state, input_character), 2 * 162);
    IS(offsetof(nd110_state, input_length), 2 * 163);
    IS(offsetof(nd110_state, output_enabled), 2 * 164);
    IS(offsetof(nd110_state, output_waits), 2 * 165);
    IS(offsetof(nd110_state, output_asks), 2 * 166);
    IS(offsetof(nd110_state, output_character), 2 * 167);
}

/* Every word lent holds something, so that what a call clears or leaves is seen. */
static void fill(void)
{
    uint16_t *word = (uint16_t *)&m;
    for (size_t i = 0; i < sizeof(m) / sizeof(*word); i++)
        word[i] = GUARD;
    for (size_t i = 0; i < WORDS(reason); i++)
        interrupt[i] = reason[i] = character[i] = GUARD;
    for (size_t i = 0; i < WORDS(steps); i++)
        steps[i] = handed[i] = GUARD;
    for (size_t i = 0; i < WORDS(references); i++)
        references[i] = UNTOLD;
}

static void guards(void)
{
    IS(m.before_state, GUARD);
    IS(m.after_state, GUARD);
    IS(m.before_record, GUARD);
    IS(m.after_record, GUARD);
    IS(m.before_memory, GUARD);
    IS(m.after_memory, GUARD);
    IS(m.before_tables, GUARD);
    IS(m.after_tables, GUARD);
    IS(m.before_out, GUARD);
    IS(m.after_out, GUARD);
    IS(interrupt[0], GUARD);
    IS(interrupt[2], GUARD);
    IS(reason[0], GUARD);
    IS(reason[2], GUARD);
    IS(reason[3], GUARD);
    IS(reason[4], GUARD);
    IS(character[0], GUARD);
    IS(character[2], GUARD);
    IS(character[3], GUARD);
    IS(character[4], GUARD);
    IS(steps[0], GUARD);
    IS(steps[2], GUARD);
    IS(handed[0], GUARD);
    IS(handed[2], GUARD);
    IS(references[0], UNTOLD);
    IS(references[2], UNTOLD);
}

static void loaded(void)
{
    fill();
    IS(nd110_load(STATE, IMAGE, MEMORY, TABLES), 0);
    ARE(m.state, { A_2, 0321 }, { PIE, 010000 }, { IIE, 020 });
    ARE(m.memory, PROGRAM);
    ARE(m.tables, { 3, 0111111 }, { 4, 022222 });
    guards();
}

/* SAA 5, by one step. */
static void stepped(void)
{
    loaded();
    IS(nd110_step(STATE, MEMORY, TABLES, &interrupt[1]), 0);
    IS(interrupt[1], 0);
    ARE(m.state, { A_0, 5 }, { P_0, 1 }, { A_2, 0321 }, { PIE, 010000 }, { IIE, 020 });
    ARE(m.memory, PROGRAM);
    ARE(m.tables, { 3, 0111111 }, { 4, 022222 });
    guards();
}

/* AAA 3, MON 7 (its number to T of level 14, interrupt 1 to IID alone), the illegal word (interrupt 4, which IIE has:
 * PID bit 14) and WAIT, which stops with interrupts off. */
static void through(void)
{
    stepped();
    IS(nd110_run(STATE, MEMORY, TABLES, 3, RAN), 0);
    IS(steps[1], 3);
    IS(reason[1], 2);
    IS(references[1], 3);
    IS(nd110_run(STATE, MEMORY, TABLES, 10, RAN), 0);
    IS(steps[1], 1);
    IS(reason[1], 0);
    IS(references[1], 1);
    ARE(m.state, { A_0, 010 }, { P_0, 5 }, { A_2, 0321 }, { T_14, 7 }, { STOPPED, 1 }, { PID, 040000 }, { PIE, 010000 },
        { IID, 022 }, { IIE, 020 });
    ARE(m.memory, PROGRAM);
    ARE(m.tables, { 3, 0111111 }, { 4, 022222 });
    guards();
}

/* AAA 3 and MON 7, which ends it; a device's level 11; the illegal word by a step; a change to level 14 that is due. */
static void to_interrupt(void)
{
    stepped();
    IS(nd110_run_to_interrupt(STATE, MEMORY, TABLES, 10, RAN), 0);
    IS(steps[1], 2);
    IS(reason[1], 3);
    IS(references[1], 2);
    ARE(m.state, { A_0, 010 }, { P_0, 3 }, { A_2, 0321 }, { T_14, 7 }, { PIE, 010000 }, { IID, 02 }, { IIE, 020 });
    IS(nd110_raise(STATE, 11, MEMORY, TABLES), 0);
    ARE(m.state, { A_0, 010 }, { P_0, 3 }, { A_2, 0321 }, { T_14, 7 }, { PID, 004000 }, { PIE, 010000 }, { IID, 02 },
        { IIE, 020 });
    IS(nd110_step(STATE, MEMORY, TABLES, &interrupt[1]), 0);
    IS(interrupt[1], 4);
    m.state[ION] = 1;
    m.state[PIE] = 050000;
    IS(nd110_run_to_interrupt(STATE, MEMORY, TABLES, 10, RAN), 0);
    IS(steps[1], 0);
    IS(reason[1], 1);
    IS(references[1], 0);
    ARE(m.state, { A_0, 010 }, { P_0, 4 }, { A_2, 0321 }, { T_14, 7 }, { ION, 1 }, { PID, 044000 }, { PIE, 050000 },
        { IID, 022 }, { IIE, 020 });
    references[1] = UNTOLD;
    IS(nd110_run(STATE, MEMORY, TABLES, 1, RAN), 0);
    IS(steps[1], 1);
    IS(reason[1], 2);
    IS(references[1], 0);
    ARE(m.state, { A_0, 010 }, { P_0, 4 }, { A_2, 0321 }, { T_14, 7 }, { LEVEL, 14 }, { ION, 1 }, { PID, 044000 },
        { PIE, 050000 }, { IID, 022 }, { IIE, 020 });
    ARE(m.memory, PROGRAM);
    ARE(m.tables, { 3, 0111111 }, { 4, 022222 });
    guards();
}

/* The record's words, in image order. */
#define RECORD_IS(...)                                  \
    do {                                                \
        uint16_t words[ND110_STATE_WORDS];              \
        memcpy(words, &m.record, sizeof words);         \
        ARE(words, __VA_ARGS__);                        \
    } while (0)

/* The same program on a record: a lent step for each instruction but MON, which a run takes; a raise of level 11 on the
 * way; then WAIT with interrupts off, and a raise of level 15 on the machine that it stopped. */
static void lent(void)
{
    fill();
    IS(nd110_load(RECORD, IMAGE, MEMORY, TABLES), 0);
    RECORD_IS({ A_2, 0321 }, { PIE, 010000 }, { IIE, 020 });
    IS(nd110_step_lent(&m.record, MEMORY, TABLES, &interrupt[1]), 0);
    IS(interrupt[1], 0);
    RECORD_IS({ A_0, 5 }, { P_0, 1 }, { A_2, 0321 }, { PIE, 010000 }, { IIE, 020 });
    IS(nd110_step_lent(&m.record, MEMORY, TABLES, &interrupt[1]), 0);
    IS(m.record.registers[0][ND110_A], 010);
    IS(m.record.registers[0][ND110_P], 2);
    IS(nd110_run(RECORD, MEMORY, TABLES, 1, RAN), 0);
    IS(steps[1], 1);
    IS(reason[1], 2);
    IS(references[1], 1);
    RECORD_IS({ A_0, 010 }, { P_0, 3 }, { A_2, 0321 }, { T_14, 7 }, { PIE, 010000 }, { IID, 02 }, { IIE, 020 });
    IS(nd110_raise_lent(&m.record, 11, MEMORY, TABLES), 0);
    IS(m.record.pid, 004000);
    IS(nd110_step_lent(&m.record, MEMORY, TABLES, &interrupt[1]), 0);
    IS(interrupt[1], 4);
    RECORD_IS({ A_0, 010 }, { P_0, 4 }, { A_2, 0321 }, { T_14, 7 }, { PID, 044000 }, { PIE, 010000 }, { IID, 022 },
              { IIE, 020 });
    IS(nd110_step_lent(&m.record, MEMORY, TABLES, &interrupt[1]), 0);
    IS(interrupt[1], 0);
    IS(m.record.stopped, 1);
    IS(nd110_raise_lent(&m.record, 15, MEMORY, TABLES), 0);
    RECORD_IS({ A_0, 010 }, { P_0, 5 }, { A_2, 0321 }, { T_14, 7 }, { STOPPED, 1 }, { PID, 0144000 }, { PIE, 010000 },
              { IID, 022 }, { IIE, 020 });
    ARE(m.memory, PROGRAM);
    ARE(m.tables, { 3, 0111111 }, { 4, 022222 });
    guards();
}

/* On level 2, STA * 3 to a page that is mapped, by a lent step: memory, the page's marks and P alone change. Then the
 * change to level 14, which is due. */
static void lent_store(void)
{
    fill();
    IS(nd110_load(RECORD, IMAGE, MEMORY, TABLES), 0);
    m.record.level = 2;
    m.record.paging_on = 1;
    m.record.pcr[2] = 2;
    m.memory[0] = 004003;
    m.tables[0] = 0162001;
    m.memory[1024] = 004003;
    IS(nd110_step_lent(&m.record, MEMORY, TABLES, &interrupt[1]), 0);
    IS(interrupt[1], 0);
    RECORD_IS({ 18, 1 }, { A_2, 0321 }, { LEVEL, 2 }, { PAGING, 1 }, { PIE, 010000 }, { IIE, 020 }, { 140, 2 });
    ARE(m.memory, { 0, 004003 }, { 1, 0172403 }, { 2, 0153007 }, { 3, 0160000 }, { 4, 0151000 }, { 5, 0123456 },
        { 1024, 004003 }, { 1027, 0321 });
    ARE(m.tables, { 0, 0176001 }, { 3, 0111111 }, { 4, 022222 });
    m.record.interrupts_on = 1;
    m.record.pid = m.record.pie = 040000;
    IS(nd110_step_lent(&m.record, MEMORY, TABLES, &interrupt[1]), 0);
    IS(interrupt[1], 0);
    RECORD_IS({ 18, 1 }, { A_2, 0321 }, { LEVEL, 14 }, { ION, 1 }, { PAGING, 1 }, { PID, 040000 }, { PIE, 040000 },
              { ND110_CONTROL(ND110_PVL), 2 }, { IIE, 020 }, { 140, 2 });
    guards();
}

/* A machine on ring 2 with paging on, normal table 1: LDA 0,B from page 2, whose entry is 0; STA 0,X to page 3, whose
 * entry is of ring 3; TRA PGS twice; the same STA; TRA PGS. Entries: the program; A, B and X; paging on; IIE for
 * interrupt 2; the PCR; the page table words of pages 0 and 3. */
static const uint16_t faulting[] = {
    7,
    1, 0, 0, 0, 6,
    2, 0, 3, 0, 5,
    3, 0, 2, 0, 1,
    3, 0, 8, 0, 1,
    3, 0, 10, 0, 1,
    4, 0, 64, 0, 1,
    4, 0, 67, 0, 1,
    0044400, 0006000, 0150003, 0150003, 0006000, 0150003,
    0004000, 0, 0321, 0, 0006000,
    1,
    04,
    01002,
    0162000,
    0163001,
};
#define FAULTING faulting, WORDS(faulting)

/* After each of its steps: the interrupt; P, A, PID and IID; PGS, and whether it is held; the references from the start
 * on, two for each fault. Of the first fault PGS is bit 14, table 1 and page 2; of the second, which finds it held, it
 * would be table 1 and page 3, as it is of the third. */
static const struct {
    uint16_t interrupt, p, a, pid, iid, pgs, held, references;
} faults[] = {
    { 3, 1, 0321, 0, 010, 0040102, 1, 2 },
    { 2, 2, 0321, 040000, 014, 0040102, 1, 4 },
    { 0, 3, 0040102, 040000, 014, 0040102, 0, 5 },
    { 0, 4, 0040102, 040000, 014, 0040102, 0, 6 },
    { 2, 5, 0040102, 040000, 014, 0000103, 1, 8 },
    { 0, 6, 0000103, 040000, 014, 0000103, 0, 9 },
};

/* The state's words after step i. */
#define FAULTED(i)                                                                                   \
    { P_0, faults[i].p }, { B_0, 0004000 }, { A_0, faults[i].a }, { X_0, 0006000 }, { PAGING, 1 },   \
    { PID, faults[i].pid }, { IID, faults[i].iid }, { IIE, 04 }, { PGS, faults[i].pgs },             \
    { PCR_0, 01002 }, { HELD, faults[i].held }

/* Memory is the image's, and of the page tables the program's entry alone is marked, as used. */
static void faulted(void)
{
    ARE(m.memory, { 0, 0044400 }, { 1, 0006000 }, { 2, 0150003 }, { 3, 0150003 }, { 4, 0006000 }, { 5, 0150003 });
    ARE(m.tables, { 64, 0166000 }, { 67, 0163001 });
    guards();
}

/* By words: each step, then so many steps at once, then to the first two interrupts, with a raise of level 11 between
 * them. */
static void held(void)
{
    fill();
    IS(nd110_load(STATE, FAULTING, MEMORY, TABLES), 0);
    for (size_t i = 0; i < WORDS(faults); i++) {
        IS(nd110_step(STATE, MEMORY, TABLES, &interrupt[1]), 0);
        IS(interrupt[1], faults[i].interrupt);
        ARE(m.state, FAULTED(i));
        faulted();
    }
    for (size_t i = 0; i < WORDS(faults); i++) {
        fill();
        IS(nd110_load(STATE, FAULTING, MEMORY, TABLES), 0);
        IS(nd110_run(STATE, MEMORY, TABLES, i + 1, RAN), 0);
        IS(steps[1], i + 1);
        IS(reason[1], 2);
        IS(references[1], faults[i].references);
        ARE(m.state, FAULTED(i));
        faulted();
    }
    fill();
    IS(nd110_load(STATE, FAULTING, MEMORY, TABLES), 0);
    IS(nd110_run_to_interrupt(STATE, MEMORY, TABLES, 10, RAN), 0);
    IS(steps[1], 1);
    IS(reason[1], 3);
    IS(references[1], 2);
    ARE(m.state, FAULTED(0));
    IS(nd110_raise(STATE, 11, MEMORY, TABLES), 0);
    ARE(m.state, FAULTED(0), { PID, 004000 });
    references[1] = UNTOLD;
    IS(nd110_run_to_interrupt(STATE, MEMORY, TABLES, 10, RAN), 0);
    IS(steps[1], 1);
    IS(reason[1], 3);
    IS(references[1], 2);
    ARE(m.state, FAULTED(1), { PID, 044000 });
    faulted();
}

/* By lent steps, read by the names of the fields and by their places; then a lent raise of level 11 while PGS is
 * held. */
static void lent_held(void)
{
    fill();
    IS(nd110_load(RECORD, FAULTING, MEMORY, TABLES), 0);
    IS(m.record.pgs_held, 0);
    for (size_t i = 0; i < WORDS(faults); i++) {
        IS(nd110_step_lent(&m.record, MEMORY, TABLES, &interrupt[1]), 0);
        IS(interrupt[1], faults[i].interrupt);
        IS(m.record.pgs, faults[i].pgs);
        IS(m.record.pgs_held, faults[i].held);
        RECORD_IS(FAULTED(i));
        faulted();
    }
    m.record.pgs_held = 1;
    IS(nd110_raise_lent(&m.record, 11, MEMORY, TABLES), 0);
    RECORD_IS(FAULTED(5), { PID, 044000 }, { HELD, 1 });
    faulted();
}

/* Written and loaded again, a fault stays held. An image of 26 control words leaves it not held, whatever the state had
 * before. */
static void held_images(void)
{
    static uint16_t copy[IMAGE_WORDS];
    static const uint16_t old[6 + 26] = { 1, 3, 0, 0, 0, 26, [6 + 9] = 0040102 };
    fill();
    IS(nd110_load(RECORD, FAULTING, MEMORY, TABLES), 0);
    IS(nd110_run(RECORD, MEMORY, TABLES, 2, RAN), 0);
    IS(references[1], 4);
    IS(nd110_write(RECORD, MEMORY, TABLES, m.out, IMAGE_WORDS), 0);
    IS(m.out[26 + 2048 + 128 + 9], 0040102);
    IS(m.out[26 + 2048 + 128 + 26], 1);
    IS(m.out[IMAGE_WORDS], GUARD);
    memcpy(copy, m.out, sizeof copy);
    fill();
    IS(nd110_load(RECORD, copy, WORDS(copy), MEMORY, TABLES), 0);
    RECORD_IS(FAULTED(1));
    faulted();
    IS(m.record.pgs_held, 1);
    IS(nd110_load(RECORD, old, WORDS(old), MEMORY, TABLES), 0);
    IS(m.record.pgs_held, 0);
    RECORD_IS({ PGS, 0040102 });
    fill();
    m.state[HELD] = 1;
    IS(nd110_load(STATE, old, WORDS(old), MEMORY, TABLES), 0);
    ARE(m.state, { PGS, 0040102 });
    guards();
}

static void viewed(void)
{
    loaded();
    IS(nd110_view(1, 2, 3, MEMORY, TABLES, OUT), 0);
    IS(m.out[0], 0153007);
    IS(m.out[1], 0160000);
    IS(m.out[2], 0151000);
    IS(m.out[3], GUARD);
    IS(nd110_view(4, 3, 2, MEMORY, TABLES, OUT), 0);
    IS(m.out[0], 0111111);
    IS(m.out[1], 022222);
    IS(m.out[2], 0151000);
    IS(nd110_view(1, 2047, 1, MEMORY, TABLES, m.out, 1), 0);
    IS(m.out[0], 0);
    IS(nd110_view(4, 512, 0, MEMORY, TABLES, m.out, 0), 0);
    IS(nd110_view_answer(4, 0, 512, MEMORY, TABLES), 0);
    IS(nd110_view_answer(4, 1, 512, MEMORY, TABLES), 9);
    IS(nd110_view_answer(1, 4, 512, MEMORY, TABLES), 0);
    IS(nd110_view_answer(1, 1024, 1024, MEMORY, TABLES), 0);
    IS(nd110_view_answer(1, 1024, 1025, MEMORY, TABLES), 9);
    ARE(m.memory, PROGRAM);
    ARE(m.tables, { 3, 0111111 }, { 4, 022222 });
    guards();
}

/* Five full entries and their bodies; then loaded again, over other contents. */
static void written(void)
{
    static const uint16_t contents[] = {
        5, 1, 0, 0, 0, 2048, 2, 0, 0, 0, 128, 3, 0, 0, 0, 28, 4, 0, 0, 0, 512, 5, 0, 0, 0, 12
    };
    static uint16_t copy[IMAGE_WORDS];
    stepped();
    IS(nd110_write(STATE, MEMORY, TABLES, OUT), 0);
    IS(memcmp(m.out, contents, sizeof contents), 0);
    IS(memcmp(m.out + 26, program, sizeof program), 0);
    IS(m.out[26 + 2048 + 2], 1);
    IS(m.out[26 + 2048 + 5], 5);
    IS(m.out[26 + 2048 + 21], 0321);
    IS(m.out[26 + 2048 + 128 + 5], 010000);
    IS(m.out[26 + 2048 + 128 + 26], 0);
    IS(m.out[26 + 2048 + 128 + 27], 0);
    IS(m.out[26 + 2048 + 128 + 28 + 3], 0111111);
    IS(m.out[26 + 2048 + 128 + 28 + 511], 0);
    IS(m.out[26 + 2048 + 128 + 28 + 512], 0);
    IS(m.out[2753], 0);
    IS(m.out[2754], GUARD);
    ARE(m.state, { A_0, 5 }, { P_0, 1 }, { A_2, 0321 }, { PIE, 010000 }, { IIE, 020 });
    guards();
    memcpy(copy, m.out, sizeof copy);
    fill();
    IS(nd110_load(STATE, copy, WORDS(copy), MEMORY, TABLES), 0);
    ARE(m.state, { A_0, 5 }, { P_0, 1 }, { A_2, 0321 }, { PIE, 010000 }, { IIE, 020 });
    ARE(m.memory, PROGRAM);
    ARE(m.tables, { 3, 0111111 }, { 4, 022222 });
    guards();
}

/* Every function's refusals; no lent word changes. */
static void refused(void)
{
    static const uint16_t many[] = { 33 };
    static const uint16_t kind[] = { 1, 6, 0, 0, 0, 0 };
    static const uint16_t target[] = { 1, 4, 0, 512, 0, 1, 0 };
    static const uint16_t overlap[] = { 2, 1, 0, 0, 0, 2, 1, 0, 1, 0, 1, 0, 0, 0 };
    static const uint16_t sts[] = { 1, 2, 0, 0, 0, 1, 0400 };
    static const uint16_t past[] = { 1, 3, 0, 28, 0, 1, 0 };
    static const uint16_t devices_past[] = { 1, 5, 0, 12, 0, 1, 0 };
    static const uint16_t held_2[] = { 1, 3, 0, 26, 0, 1, 2 };
    static const uint16_t extended_2[] = { 1, 3, 0, 27, 0, 1, 2 };
    static const size_t states[] = { 0, 154, 155, 156, 167, 169 }, tables[] = { 0, 255, 256, 511, 513 };
    static const uint64_t at[2] = { 0, 0 };
    static const uint16_t what[2] = { 10, 10 };
    static uint16_t told[2] = { 077, 077 };
    static struct machine was;
    const uint16_t *nowhere = NULL;
    nd110_state *none = NULL;
    loaded();
    memcpy(&m.record, m.state, sizeof m.record);
    interrupt[1] = reason[1] = character[1] = 077;
    steps[1] = handed[1] = 0777;
    references[1] = UNTOLD - 1;
    was = m;
    for (size_t i = 0; i < WORDS(states); i++) {
        size_t len = states[i];
        IS(nd110_step(m.state, len, MEMORY, TABLES, &interrupt[1]), 255);
        IS(nd110_run(m.state, len, MEMORY, TABLES, 10, RAN), 255);
        IS(nd110_run_to_interrupt(m.state, len, MEMORY, TABLES, 10, RAN), 255);
        IS(nd110_raise(m.state, len, 10, MEMORY, TABLES), 255);
        IS(nd110_load(m.state, len, IMAGE, MEMORY, TABLES), 255);
        IS(nd110_write(m.state, len, MEMORY, TABLES, OUT), 255);
        IS(nd110_tick(m.state, len, MEMORY, TABLES), 255);
        IS(nd110_type(m.state, len, 0101, MEMORY, TABLES), 255);
        IS(nd110_read_out(m.state, len, MEMORY, TABLES, &character[1]), 255);
        IS(nd110_run_with_input(m.state, len, MEMORY, TABLES, 10, at, 2, what, 2, told, 2, TOLD), 255);
    }
    /* the three lists have one length */
    for (size_t i = 0; i < 27; i++) {
        size_t first = i % 3, second = i / 3 % 3, third = i / 9;
        if (first != second || second != third) {
            IS(nd110_run_with_input(STATE, MEMORY, TABLES, 10, at, first, what, second, told, third, TOLD), 255);
            IS(nd110_run_with_input(STATE, m.memory, 0, TABLES, 10, at, first, what, second, told, third, TOLD), 255);
        }
    }
    for (size_t len = 0; len <= 2047; len += 2047) {
        IS(nd110_step(STATE, m.memory, len, TABLES, &interrupt[1]), 1);
        IS(nd110_step_lent(&m.record, m.memory, len, TABLES, &interrupt[1]), 1);
        IS(nd110_raise_lent(&m.record, 10, m.memory, len, TABLES), 1);
        IS(nd110_run(STATE, m.memory, len, TABLES, 10, RAN), 1);
        IS(nd110_run_to_interrupt(STATE, m.memory, len, TABLES, 10, RAN), 1);
        IS(nd110_raise(STATE, 10, m.memory, len, TABLES), 1);
        IS(nd110_load(STATE, IMAGE, m.memory, len, TABLES), 1);
        IS(nd110_write(STATE, m.memory, len, TABLES, OUT), 1);
        IS(nd110_tick(STATE, m.memory, len, TABLES), 1);
        IS(nd110_type(STATE, 0101, m.memory, len, TABLES), 1);
        IS(nd110_read_out(STATE, m.memory, len, TABLES, &character[1]), 1);
        IS(nd110_run_with_input(STATE, m.memory, len, TABLES, 10, at, 2, what, 2, told, 2, TOLD), 1);
        IS(nd110_view(1, 0, 1, m.memory, len, TABLES, OUT), 1);
        IS(nd110_view_answer(1, 0, 1, m.memory, len, TABLES), 1);
    }
    for (size_t i = 0; i < WORDS(tables); i++) {
        size_t len = tables[i];
        IS(nd110_step(STATE, MEMORY, m.tables, len, &interrupt[1]), 1);
        IS(nd110_step_lent(&m.record, MEMORY, m.tables, len, &interrupt[1]), 1);
        IS(nd110_raise_lent(&m.record, 10, MEMORY, m.tables, len), 1);
        IS(nd110_run(STATE, MEMORY, m.tables, len, 10, RAN), 1);
        IS(nd110_run_to_interrupt(STATE, MEMORY, m.tables, len, 10, RAN), 1);
        IS(nd110_raise(STATE, 10, MEMORY, m.tables, len), 1);
        IS(nd110_load(STATE, IMAGE, MEMORY, m.tables, len), 1);
        IS(nd110_write(STATE, MEMORY, m.tables, len, OUT), 1);
        IS(nd110_tick(STATE, MEMORY, m.tables, len), 1);
        IS(nd110_type(STATE, 0101, MEMORY, m.tables, len), 1);
        IS(nd110_read_out(STATE, MEMORY, m.tables, len, &character[1]), 1);
        IS(nd110_run_with_input(STATE, MEMORY, m.tables, len, 10, at, 2, what, 2, told, 2, TOLD), 1);
        IS(nd110_view(1, 0, 1, MEMORY, m.tables, len, OUT), 1);
        IS(nd110_view_answer(1, 0, 1, MEMORY, m.tables, len), 1);
    }
    IS(nd110_raise(STATE, 10, ND110_LENT(nowhere, MEMORY_WORDS), TABLES), 1);
    IS(nd110_raise(STATE, 9, MEMORY, TABLES), 3);
    IS(nd110_raise(STATE, 14, MEMORY, TABLES), 3);
    IS(nd110_raise(STATE, 16, MEMORY, TABLES), 3);
    IS(nd110_raise_lent(&m.record, 9, MEMORY, TABLES), 3);
    IS(nd110_raise_lent(&m.record, 14, MEMORY, TABLES), 3);
    IS(nd110_raise_lent(&m.record, 16, MEMORY, TABLES), 3);
    IS(nd110_raise_lent(&m.record, 16, ND110_LENT(nowhere, MEMORY_WORDS), TABLES), 1);
    IS(nd110_load(ND110_WORDS(none), IMAGE, MEMORY, TABLES), 255);
    IS(nd110_load(STATE, image, 0, MEMORY, TABLES), 4);
    IS(nd110_load(STATE, image, 25, MEMORY, TABLES), 4);
    IS(nd110_load(STATE, many, WORDS(many), MEMORY, TABLES), 4);
    IS(nd110_load(STATE, kind, WORDS(kind), MEMORY, TABLES), 5);
    IS(nd110_load(STATE, target, WORDS(target), MEMORY, TABLES), 6);
    IS(nd110_load(STATE, past, WORDS(past), MEMORY, TABLES), 6);
    IS(nd110_load(STATE, devices_past, WORDS(devices_past), MEMORY, TABLES), 6);
    IS(nd110_load(STATE, overlap, WORDS(overlap), MEMORY, TABLES), 7);
    IS(nd110_load(STATE, image, WORDS(image) - 1, MEMORY, TABLES), 8);
    IS(nd110_load(STATE, sts, WORDS(sts), MEMORY, TABLES), 2);
    IS(nd110_load(STATE, held_2, WORDS(held_2), MEMORY, TABLES), 2);
    IS(nd110_load(STATE, extended_2, WORDS(extended_2), MEMORY, TABLES), 2);
    IS(nd110_write(STATE, MEMORY, TABLES, m.out, MEMORY_WORDS + 705), 10);
    IS(nd110_view(2, 0, 1, MEMORY, TABLES, OUT), 255);
    IS(nd110_view(1, 0, 2, MEMORY, TABLES, m.out, 1), 255);
    IS(nd110_view(1, 2048, 1, MEMORY, TABLES, OUT), 9);
    IS(nd110_view(4, 511, 2, MEMORY, TABLES, OUT), 9);
    IS(nd110_view(4, SIZE_MAX, 2, MEMORY, TABLES, OUT), 9);
    IS(nd110_view_answer(0, 0, 1, MEMORY, TABLES), 255);
    IS(nd110_view_answer(5, 0, 1, MEMORY, TABLES), 255);
    IS(nd110_view_answer(4, SIZE_MAX, 2, MEMORY, TABLES), 9);
    IS(memcmp(&m, &was, sizeof m), 0);
    m.state[0] = was.state[0] = 0400;
    m.record.pcr[15] = was.record.pcr[15] = 4;
    IS(nd110_step_lent(&m.record, m.memory, 2047, TABLES, &interrupt[1]), 1);
    IS(nd110_step_lent(&m.record, MEMORY, TABLES, &interrupt[1]), 2);
    IS(nd110_raise_lent(&m.record, 9, MEMORY, TABLES), 2);
    IS(nd110_step(STATE, MEMORY, TABLES, &interrupt[1]), 2);
    IS(nd110_run(STATE, MEMORY, TABLES, 10, RAN), 2);
    IS(nd110_run_to_interrupt(STATE, MEMORY, TABLES, 10, RAN), 2);
    IS(nd110_raise(STATE, 10, MEMORY, TABLES), 2);
    IS(nd110_write(STATE, MEMORY, TABLES, OUT), 2);
    IS(nd110_tick(STATE, MEMORY, TABLES), 2);
    IS(nd110_type(STATE, 0101, MEMORY, TABLES), 2);
    IS(nd110_read_out(STATE, MEMORY, TABLES, &character[1]), 2);
    IS(nd110_run_with_input(STATE, MEMORY, TABLES, 10, at, 2, what, 2, told, 2, TOLD), 2);
    IS(memcmp(&m, &was, sizeof m), 0);
    IS(interrupt[1], 077);
    IS(reason[1], 077);
    IS(character[1], 077);
    IS(told[0], 077);
    IS(told[1], 077);
    IS(steps[1], 0777);
    IS(handed[1], 0777);
    IS(references[1], UNTOLD - 1);
    guards();
}

/* The most that a word may be: whether PGS is held, the extended flag, and the devices' words. */
static const struct word ranges[] = {
    { HELD, 1 }, { EXTENDED, 1 }, { 156, 1 }, { 157, 1 }, { 158, 1 }, { 159, 1 }, { 160, 1 }, { 161, 1 }, { 162, 255 },
    { 163, 3 }, { 164, 1 }, { 165, 1 }, { 166, 1 }, { 167, 255 },
};

/* Every function that tests the state refuses one more, and others, and no lent word changes; load refuses the same of
 * an image. The most is taken. */
static void refused_words(void)
{
    static const uint16_t more[] = { 1, 2, 0100000, 0177400 };
    static const uint64_t at_0[1] = { 0 };
    static const uint16_t tick[1] = { 256 };
    static uint16_t told[1] = { 077 };
    static struct machine was;
    for (size_t i = 0; i < WORDS(ranges) * WORDS(more); i++) {
        size_t at = ranges[i / WORDS(more)].at;
        uint16_t most = ranges[i / WORDS(more)].value, wrong = (uint16_t)(most + more[i % WORDS(more)]);
        uint16_t named[7] = { 1, 3, 0, (uint16_t)(at - 128), 0, 1, wrong };
        if (at >= 156) {
            named[1] = 5;
            named[3] = (uint16_t)(at - 156);
        }
        loaded();
        IS(nd110_load(STATE, named, 7, MEMORY, TABLES), 2);
        m.state[at] = wrong;
        memcpy(&m.record, m.state, sizeof m.record);
        interrupt[1] = reason[1] = character[1] = 077;
        steps[1] = handed[1] = 0777;
        references[1] = UNTOLD - 1;
        was = m;
        IS(nd110_step(STATE, MEMORY, TABLES, &interrupt[1]), 2);
        IS(nd110_step_lent(&m.record, MEMORY, TABLES, &interrupt[1]), 2);
        IS(nd110_run(STATE, MEMORY, TABLES, 10, RAN), 2);
        IS(nd110_run(RECORD, MEMORY, TABLES, 10, RAN), 2);
        IS(nd110_run_to_interrupt(STATE, MEMORY, TABLES, 10, RAN), 2);
        IS(nd110_raise(STATE, 10, MEMORY, TABLES), 2);
        IS(nd110_raise_lent(&m.record, 10, MEMORY, TABLES), 2);
        IS(nd110_write(STATE, MEMORY, TABLES, OUT), 2);
        IS(nd110_write(RECORD, MEMORY, TABLES, OUT), 2);
        IS(nd110_tick(STATE, MEMORY, TABLES), 2);
        IS(nd110_type(STATE, 0101, MEMORY, TABLES), 2);
        IS(nd110_read_out(STATE, MEMORY, TABLES, &character[1]), 2);
        IS(nd110_run_with_input(STATE, MEMORY, TABLES, 10, at_0, 1, tick, 1, told, 1, TOLD), 2);
        IS(memcmp(&m, &was, sizeof m), 0);
        IS(interrupt[1], 077);
        IS(reason[1], 077);
        IS(character[1], 077);
        IS(told[0], 077);
        IS(steps[1], 0777);
        IS(handed[1], 0777);
        IS(references[1], UNTOLD - 1);
        guards();
        m.state[at] = most;
        memcpy(&m.record, m.state, sizeof m.record);
        IS(nd110_step(STATE, MEMORY, TABLES, &interrupt[1]), 0);
        IS(m.state[at], most);
        IS(nd110_raise_lent(&m.record, 10, MEMORY, TABLES), 0);
        named[6] = most;
        IS(nd110_load(STATE, named, 7, MEMORY, TABLES), 0);
        ARE(m.state, { at, most });
    }
}

/* What is done to a machine in a row of `done` below. */
enum deed { IOX, IOXT, IDENT, TICKED, TYPED, READ };

/* The registers of both devices, in the order of document 000, 6.9. A row has the deed; the address, the level code or
 * the character; A before it, of IOX, IOXT and IDENT; what is told, the interrupt, the answer or the character read
 * out; A and PID after it; and the devices' words after it, clock, input and output. PID is 0 before each. */
static const struct {
    enum deed deed;
    uint16_t which, a, told, after, pid, words[12];
} done[] = {
    /* cleared: nothing is enabled, output is ready */
    { IOX, 0012, 0123456, 0, 0, 0, { 0, 0, 0, 0, 0, 0, 0, 0, 0, 0, 0, 0 } },
    { IOX, 0302, 0123456, 0, 0, 0, { 0, 0, 0, 0, 0, 0, 0, 0, 0, 0, 0, 0 } },
    { IOX, 0306, 0123456, 0, 010, 0, { 0, 0, 0, 0, 0, 0, 0, 0, 0, 0, 0, 0 } },
    { IOX, 0300, 0123456, 0, 0, 0, { 0, 0, 0, 0, 0, 0, 0, 0, 0, 0, 0, 0 } },
    { READ, 0, 0, 256, 0, 0, { 0, 0, 0, 0, 0, 0, 0, 0, 0, 0, 0, 0 } },
    /* the clock: a tick while it is disabled, enabled afterwards */
    { IOX, 0013, 0177776, 0, 0177776, 0, { 0, 0, 0, 0, 0, 0, 0, 0, 0, 0, 0, 0 } },
    { TICKED, 0, 0, 0, 0177776, 0, { 0, 1, 0, 0, 0, 0, 0, 0, 0, 0, 0, 0 } },
    { IOX, 0012, 0123456, 0, 010, 0, { 0, 1, 0, 0, 0, 0, 0, 0, 0, 0, 0, 0 } },
    { IOX, 0013, 1, 0, 1, 020000, { 1, 1, 1, 0, 0, 0, 0, 0, 0, 0, 0, 0 } },
    { IOX, 0012, 0123456, 0, 011, 0, { 1, 1, 1, 0, 0, 0, 0, 0, 0, 0, 0, 0 } },
    { TICKED, 0, 0, 0, 011, 020000, { 1, 1, 1, 0, 0, 0, 0, 0, 0, 0, 0, 0 } },
    { IDENT, 043, 0123456, 0, 1, 0, { 1, 1, 0, 0, 0, 0, 0, 0, 0, 0, 0, 0 } },
    { IDENT, 043, 0123456, 7, 0123456, 0, { 1, 1, 0, 0, 0, 0, 0, 0, 0, 0, 0, 0 } },
    { IOX, 0013, 020001, 0, 020001, 0, { 1, 0, 0, 0, 0, 0, 0, 0, 0, 0, 0, 0 } },
    { TICKED, 0, 0, 0, 020001, 020000, { 1, 1, 1, 0, 0, 0, 0, 0, 0, 0, 0, 0 } },
    { IOX, 0013, 020000, 0, 020000, 0, { 0, 0, 1, 0, 0, 0, 0, 0, 0, 0, 0, 0 } },
    { IOX, 0010, 0123456, 0, 0, 0, { 0, 0, 1, 0, 0, 0, 0, 0, 0, 0, 0, 0 } },
    { IOX, 0011, 0123456, 0, 0123456, 0, { 0, 0, 1, 0, 0, 0, 0, 0, 0, 0, 0, 0 } },
    { IDENT, 022, 0123456, 7, 0123456, 0, { 0, 0, 1, 0, 0, 0, 0, 0, 0, 0, 0, 0 } },
    { IDENT, 004, 0123456, 7, 0123456, 0, { 0, 0, 1, 0, 0, 0, 0, 0, 0, 0, 0, 0 } },
    { IDENT, 043, 0123456, 0, 1, 0, { 0, 0, 0, 0, 0, 0, 0, 0, 0, 0, 0, 0 } },
    /* input: a character while it is disabled, then enabled, in 5 bits; in 7 and in 6 bits */
    { TYPED, 0301, 0, 0, 1, 0, { 0, 0, 0, 0, 1, 0, 0301, 0, 0, 0, 0, 0 } },
    { TYPED, 0302, 0, 11, 1, 0, { 0, 0, 0, 0, 1, 0, 0301, 0, 0, 0, 0, 0 } },
    { IOX, 0302, 0123456, 0, 010, 0, { 0, 0, 0, 0, 1, 0, 0301, 0, 0, 0, 0, 0 } },
    { IOX, 0303, 014001, 0, 014001, 010000, { 0, 0, 0, 1, 1, 1, 0301, 3, 0, 0, 0, 0 } },
    { IOX, 0302, 0123456, 0, 011, 0, { 0, 0, 0, 1, 1, 1, 0301, 3, 0, 0, 0, 0 } },
    { IOX, 0300, 0123456, 0, 1, 0, { 0, 0, 0, 1, 0, 1, 0301, 3, 0, 0, 0, 0 } },
    { IOX, 0302, 0123456, 0, 1, 0, { 0, 0, 0, 1, 0, 1, 0301, 3, 0, 0, 0, 0 } },
    { IOX, 0300, 0123456, 0, 1, 0, { 0, 0, 0, 1, 0, 1, 0301, 3, 0, 0, 0, 0 } },
    { IDENT, 022, 0123456, 0, 1, 0, { 0, 0, 0, 1, 0, 0, 0301, 3, 0, 0, 0, 0 } },
    { TYPED, 0377, 0, 0, 1, 010000, { 0, 0, 0, 1, 1, 1, 0377, 3, 0, 0, 0, 0 } },
    { IOX, 0303, 0163776, 0, 0163776, 0, { 0, 0, 0, 0, 1, 1, 0377, 0, 0, 0, 0, 0 } },
    { IOX, 0303, 004000, 0, 004000, 0, { 0, 0, 0, 0, 1, 1, 0377, 1, 0, 0, 0, 0 } },
    { IOX, 0300, 0123456, 0, 0177, 0, { 0, 0, 0, 0, 0, 1, 0377, 1, 0, 0, 0, 0 } },
    { IOX, 0301, 0123456, 0, 0123456, 0, { 0, 0, 0, 0, 0, 1, 0377, 1, 0, 0, 0, 0 } },
    { IOX, 0303, 010001, 0, 010001, 0, { 0, 0, 0, 1, 0, 1, 0377, 2, 0, 0, 0, 0 } },
    { IOX, 0300, 0123456, 0, 077, 0, { 0, 0, 0, 1, 0, 1, 0377, 2, 0, 0, 0, 0 } },
    /* output: in 6 bits; one that waited is gone; enabled while one waits */
    { IOX, 0305, 0177777, 0, 0177777, 0, { 0, 0, 0, 1, 0, 1, 0377, 2, 0, 1, 0, 077 } },
    { IOX, 0306, 0123456, 0, 0, 0, { 0, 0, 0, 1, 0, 1, 0377, 2, 0, 1, 0, 077 } },
    { IOX, 0303, 0, 0, 0, 0, { 0, 0, 0, 0, 0, 1, 0377, 0, 0, 1, 0, 077 } },
    { IOX, 0305, 0177552, 0, 0177552, 0, { 0, 0, 0, 0, 0, 1, 0377, 0, 0, 1, 0, 0152 } },
    { IOX, 0307, 1, 0, 1, 0, { 0, 0, 0, 0, 0, 1, 0377, 0, 1, 1, 0, 0152 } },
    { IOX, 0306, 0123456, 0, 1, 0, { 0, 0, 0, 0, 0, 1, 0377, 0, 1, 1, 0, 0152 } },
    { READ, 0, 0, 0152, 1, 002000, { 0, 0, 0, 0, 0, 1, 0377, 0, 1, 0, 1, 0152 } },
    { READ, 0, 0, 256, 1, 0, { 0, 0, 0, 0, 0, 1, 0377, 0, 1, 0, 1, 0152 } },
    { IOX, 0306, 0123456, 0, 011, 0, { 0, 0, 0, 0, 0, 1, 0377, 0, 1, 0, 1, 0152 } },
    { IDENT, 004, 0123456, 0, 1, 0, { 0, 0, 0, 0, 0, 1, 0377, 0, 1, 0, 0, 0152 } },
    { IOX, 0307, 0177777, 0, 0177777, 002000, { 0, 0, 0, 0, 0, 1, 0377, 0, 1, 0, 1, 0152 } },
    { IOX, 0307, 0177776, 0, 0177776, 0, { 0, 0, 0, 0, 0, 1, 0377, 0, 0, 0, 1, 0152 } },
    { IOX, 0305, 0, 0, 0, 0, { 0, 0, 0, 0, 0, 1, 0377, 0, 0, 1, 1, 0 } },
    { READ, 0, 0, 0, 0, 0, { 0, 0, 0, 0, 0, 1, 0377, 0, 0, 0, 1, 0 } },
    { IOX, 0304, 0123456, 0, 0, 0, { 0, 0, 0, 0, 0, 1, 0377, 0, 0, 0, 1, 0 } },
    /* by T, all sixteen bits */
    { IOXT, 0306, 0123456, 0, 010, 0, { 0, 0, 0, 0, 0, 1, 0377, 0, 0, 0, 1, 0 } },
    { IOXT, 0013, 1, 0, 1, 0, { 1, 0, 0, 0, 0, 1, 0377, 0, 0, 0, 1, 0 } },
    { IOXT, 0004013, 0, 7, 0, 0, { 1, 0, 0, 0, 0, 1, 0377, 0, 0, 0, 1, 0 } },
    { IOXT, 0100300, 0123456, 7, 0123456, 0, { 1, 0, 0, 0, 0, 1, 0377, 0, 0, 0, 1, 0 } },
    /* the addresses beside the twelve, and IDENT of what no device answers */
    { IOX, 0007, 0123456, 7, 0123456, 0, { 1, 0, 0, 0, 0, 1, 0377, 0, 0, 0, 1, 0 } },
    { IOX, 0014, 0123456, 7, 0123456, 0, { 1, 0, 0, 0, 0, 1, 0377, 0, 0, 0, 1, 0 } },
    { IOX, 0277, 0123456, 7, 0123456, 0, { 1, 0, 0, 0, 0, 1, 0377, 0, 0, 0, 1, 0 } },
    { IOX, 0310, 0123456, 7, 0123456, 0, { 1, 0, 0, 0, 0, 1, 0377, 0, 0, 0, 1, 0 } },
    { IOX, 02306, 0123456, 7, 0123456, 0, { 1, 0, 0, 0, 0, 1, 0377, 0, 0, 0, 1, 0 } },
    { IOX, 03777, 0123456, 7, 0123456, 0, { 1, 0, 0, 0, 0, 1, 0377, 0, 0, 0, 1, 0 } },
    { IDENT, 011, 0123456, 7, 0123456, 0, { 1, 0, 0, 0, 0, 1, 0377, 0, 0, 0, 1, 0 } },
    { IDENT, 000, 0123456, 7, 0123456, 0, { 1, 0, 0, 0, 0, 1, 0377, 0, 0, 0, 1, 0 } },
    { IDENT, 077, 0123456, 7, 0123456, 0, { 1, 0, 0, 0, 0, 1, 0377, 0, 0, 0, 1, 0 } },
    { IDENT, 004, 0123456, 0, 1, 0, { 1, 0, 0, 0, 0, 1, 0377, 0, 0, 0, 0, 0 } },
    { IDENT, 022, 0123456, 0, 1, 0, { 1, 0, 0, 0, 0, 0, 0377, 0, 0, 0, 0, 0 } },
};

/* The devices' words of a row. */
#define DEVICES_ARE(w)                                                                               \
    { 156, (w)[0] }, { 157, (w)[1] }, { 158, (w)[2] }, { 159, (w)[3] }, { 160, (w)[4] },             \
    { 161, (w)[5] }, { 162, (w)[6] }, { 163, (w)[7] }, { 164, (w)[8] }, { 165, (w)[9] },             \
    { 166, (w)[10] }, { 167, (w)[11] }

/* The word that is executed in a row; IOXT has its address in T. */
static uint16_t executed(size_t i)
{
    switch (done[i].deed) {
    case IOX:
        return (uint16_t)(0164000 + done[i].which);
    case IOXT:
        return 0150415;
    default:
        return (uint16_t)(0143600 + done[i].which);
    }
}

/* A row on words and on the record, which are the same machine. Told is what both gave. */
static void deed(size_t i)
{
    uint16_t which = done[i].which;
    switch (done[i].deed) {
    case TICKED:
        IS(nd110_tick(STATE, MEMORY, TABLES), 0);
        IS(nd110_tick(RECORD, MEMORY, TABLES), 0);
        return;
    case TYPED:
        IS(nd110_type(STATE, (uint8_t)which, MEMORY, TABLES), done[i].told);
        IS(nd110_type(RECORD, (uint8_t)which, MEMORY, TABLES), done[i].told);
        return;
    case READ:
        IS(nd110_read_out(STATE, MEMORY, TABLES, &character[1]), 0);
        IS(character[1], done[i].told);
        IS(nd110_read_out(RECORD, MEMORY, TABLES, &character[3]), 0);
        IS(character[3], done[i].told);
        character[3] = GUARD;
        return;
    default:
        IS(nd110_step(STATE, MEMORY, TABLES, &interrupt[1]), 0);
        IS(interrupt[1], done[i].told);
        IS(nd110_step_lent(&m.record, MEMORY, TABLES, &interrupt[1]), 0);
        IS(interrupt[1], done[i].told);
        return;
    }
}

/* An image that names nothing: a cleared machine. */
static const uint16_t cleared[] = { 0 };

/* One machine through all of them. */
static void registers(void)
{
    uint16_t p = 0, t = 0, iid = 0;
    fill();
    IS(nd110_load(STATE, cleared, WORDS(cleared), MEMORY, TABLES), 0);
    IS(nd110_load(RECORD, cleared, WORDS(cleared), MEMORY, TABLES), 0);
    for (size_t i = 0; i < WORDS(done); i++) {
        m.state[PID] = m.record.pid = 0;
        if (done[i].deed <= IDENT) {
            m.state[A_0] = m.record.registers[0][ND110_A] = done[i].a;
            if (done[i].deed == IOXT)
                t = m.state[T_0] = m.record.registers[0][ND110_T] = done[i].which;
            m.memory[p++] = executed(i);
            if (done[i].told == 7)
                iid = 0200;
        }
        deed(i);
        ARE(m.state, { A_0, done[i].after }, { P_0, p }, { T_0, t }, { PID, done[i].pid }, { IID, iid },
            DEVICES_ARE(done[i].words));
        RECORD_IS({ A_0, done[i].after }, { P_0, p }, { T_0, t }, { PID, done[i].pid }, { IID, iid },
                  DEVICES_ARE(done[i].words));
        for (size_t k = p; k < MEMORY_WORDS; k++)
            IS(m.memory[k], 0);
        ARE(m.tables, { 0, 0 });
        guards();
    }
    IS(m.record.clock_enabled, 1);
    IS(m.record.input_character, 0377);
}

/* A raise is no device's asking: IDENT gives 7. And on a stopped machine all three are taken. */
static void idents(void)
{
    static const uint16_t levels[][2] = { { 10, 0143604 }, { 11, 0143611 }, { 12, 0143622 }, { 13, 0143643 } };
    for (size_t i = 0; i < WORDS(levels); i++) {
        loaded();
        m.memory[0] = levels[i][1];
        IS(nd110_raise(STATE, levels[i][0], MEMORY, TABLES), 0);
        IS(nd110_step(STATE, MEMORY, TABLES, &interrupt[1]), 0);
        IS(interrupt[1], 7);
        ARE(m.state, { P_0, 1 }, { A_2, 0321 }, { PID, (uint16_t)(1u << levels[i][0]) }, { PIE, 010000 }, { IID, 0200 },
            { IIE, 020 });
    }
    loaded();
    m.state[STOPPED] = m.state[156] = m.state[159] = m.state[164] = m.state[165] = 1;
    m.state[167] = 0303;
    IS(nd110_tick(STATE, MEMORY, TABLES), 0);
    IS(nd110_type(STATE, 0, MEMORY, TABLES), 0);
    IS(nd110_read_out(STATE, MEMORY, TABLES, &character[1]), 0);
    IS(character[1], 0303);
    ARE(m.state, { A_2, 0321 }, { STOPPED, 1 }, { PID, 032000 }, { PIE, 010000 }, { IIE, 020 }, { 156, 1 }, { 157, 1 },
        { 158, 1 }, { 159, 1 }, { 160, 1 }, { 161, 1 }, { 164, 1 }, { 166, 1 }, { 167, 0303 });
    ARE(m.memory, PROGRAM);
    guards();
}

/* An echo with neither interrupts nor test of the output: IOX 302, BSKP ONE 30 DA, JMP *-2, IOX 300, IOX 305,
 * JMP *-5. */
static const uint16_t echo[] = { 1, 1, 0, 0, 0, 6, 0164302, 0175235, 0124376, 0164300, 0164305, 0124373 };
#define ECHO                                                                                         \
    { 0, 0164302 }, { 1, 0175235 }, { 2, 0124376 }, { 3, 0164300 }, { 4, 0164305 }, { 5, 0124373 }

/* Twelve steps of it, each of one reference, its fetch. The loop of three is left with the third reading of the status,
 * step 7; step 9 reads the character, 10 sends it, 11 jumps back. The fifth input's step is passed: it is handed in
 * after the one before it. The last two are not handed in: one is for step 13, the other is behind it. */
static void inputs(void)
{
    static const uint64_t at[] = { 0, 0, 4, 4, 2, 4, 4, 4, 4, 4, 10, 10, 12, 13, 5 };
    static const uint16_t what[] = {
        257, 256, 512 + 0101, 512 + 0102, 11, 14, 0, 258, 511, 768, 257, 257, 512 + 0377, 256, 256
    };
    static const uint16_t telling[] = { 256, 0, 0, 11, 0, 3, 3, 3, 3, 3, 0101, 256, 0, GUARD, GUARD };
    uint16_t told[WORDS(at)];
    for (size_t i = 0; i < WORDS(told); i++)
        told[i] = GUARD;
    fill();
    IS(nd110_load(STATE, echo, WORDS(echo), MEMORY, TABLES), 0);
    IS(nd110_run_with_input(STATE, MEMORY, TABLES, 12, at, WORDS(at), what, WORDS(what), told, WORDS(told), TOLD), 0);
    IS(handed[1], 13);
    IS(steps[1], 12);
    IS(reason[1], 2);
    IS(references[1], 12);
    IS(memcmp(told, telling, sizeof told), 0);
    ARE(m.state, { P_0, 1 }, { PID, 004000 }, { 157, 1 }, { 160, 1 }, { 162, 0377 }, { 167, 0101 });
    ARE(m.memory, ECHO);
    ARE(m.tables, { 0, 0 });
    guards();
    /* without input it is the run to the first interrupt; on a record too */
    IS(nd110_load(RECORD, echo, WORDS(echo), MEMORY, TABLES), 0);
    IS(nd110_run_with_input(RECORD, MEMORY, TABLES, 7, NO_INPUT, TOLD), 0);
    IS(handed[1], 0);
    IS(steps[1], 7);
    IS(reason[1], 2);
    IS(references[1], 7);
    RECORD_IS({ P_0, 1 });
    guards();
}

/* Why a run with input ends, and which inputs it has taken then. Each list has a tick or a raise of level 11, then a
 * tick for the same step. The machine executes WAIT, a word that is no instruction, or SAA 5, one reference each; PIE
 * has level 11. */
static void ended(void)
{
    static const struct {
        uint16_t word, first, on, stopped, asked, at, handed, steps, reason, p, a, pid, iid, ready;
    } ends[] = {
        { 0151000, 256, 0, 0, 10, 1, 0, 1, 0, 1, 0, 0, 0, 0 },
        { 0160000, 256, 0, 0, 10, 1, 0, 1, 3, 1, 0, 0, 020, 0 },
        { 0170405, 11, 1, 0, 10, 1, 1, 1, 1, 1, 5, 004000, 0, 0 },
        { 0170405, 256, 1, 0, 1, 1, 2, 1, 2, 1, 5, 0, 0, 1 },
        { 0170405, 11, 1, 0, 1, 1, 1, 1, 1, 1, 5, 004000, 0, 0 },
        { 0170405, 256, 0, 1, 10, 0, 0, 0, 0, 0, 0, 0, 0, 0 },
        { 0170405, 256, 0, 0, 1, 2, 0, 1, 2, 1, 5, 0, 0, 0 },
        { 0170405, 256, 0, 0, 0, 0, 2, 0, 2, 0, 0, 0, 0, 1 },
    };
    for (size_t i = 0; i < WORDS(ends); i++) {
        const uint64_t at[2] = { ends[i].at, ends[i].at };
        const uint16_t what[2] = { ends[i].first, 256 };
        uint16_t told[4] = { GUARD, GUARD, GUARD, GUARD };
        fill();
        IS(nd110_load(STATE, echo, WORDS(echo), MEMORY, TABLES), 0);
        m.memory[0] = ends[i].word;
        m.state[ION] = ends[i].on;
        m.state[STOPPED] = ends[i].stopped;
        m.state[PIE] = 004000;
        IS(nd110_run_with_input(STATE, MEMORY, TABLES, ends[i].asked, at, 2, what, 2, told + 1, 2, TOLD), 0);
        IS(handed[1], ends[i].handed);
        IS(steps[1], ends[i].steps);
        IS(reason[1], ends[i].reason);
        IS(references[1], ends[i].steps);
        IS(told[0], GUARD);
        IS(told[1], ends[i].handed > 0 ? 0 : GUARD);
        IS(told[2], ends[i].handed > 1 ? 0 : GUARD);
        IS(told[3], GUARD);
        ARE(m.state, { A_0, ends[i].a }, { P_0, ends[i].p }, { ION, ends[i].on }, { PID, ends[i].pid }, { PIE, 004000 },
            { IID, ends[i].iid }, { STOPPED, ends[i].reason == 0 }, { 157, ends[i].ready });
        guards();
    }
}

/* One step's memory references. A row has the word, which is at 0, the interrupt that it gives and its references, then
 * P, B, D and X. T is 0300, and 01000 is at 0100, an indirect word for some. Memory has 2,048 words: 03777 is its
 * last. */
static const struct {
    uint16_t word, interrupt, references, p, b, d, x;
} made[] = {
    { 0170405, 0, 1, 0, 0, 0, 0 },             /* SAA 5: the fetch */
    { 0044400, 0, 2, 0, 0100, 0, 0 },          /* LDA 0,B: and the operand */
    { 0045400, 0, 3, 0, 0100, 0, 0 },          /* LDA I 0,B: and the indirect word */
    { 0004400, 0, 2, 0, 0100, 0, 0 },          /* STA 0,B */
    { 0060400, 0, 2, 0, 0100, 0, 0 },          /* ADD 0,B */
    { 0024400, 0, 3, 0, 0100, 0, 0 },          /* LDD 0,B: two words */
    { 0034400, 0, 4, 0, 0100, 0, 0 },          /* LDF 0,B: three */
    { 0031400, 0, 5, 0, 0100, 0, 0 },          /* STF I 0,B: three and the indirect word */
    { 0040400, 0, 3, 0, 0100, 0, 0 },          /* MIN 0,B: its word read and written */
    { 0041400, 0, 4, 0, 0100, 0, 0 },          /* MIN I 0,B */
    { 0124400, 0, 1, 0, 0100, 0, 0 },          /* JMP 0,B: none at the target */
    { 0125400, 0, 2, 0, 0100, 0, 0 },          /* JMP I 0,B */
    { 0135400, 0, 2, 0, 0100, 0, 0 },          /* JPL I 0,B */
    { 0142200, 0, 2, 0, 0, 0, 5 },             /* LBYT */
    { 0142600, 0, 3, 0, 0, 0, 5 },             /* SBYT: its word read and written */
    { 0140610, 0, 2, 0, 0100, 0044400, 0 },    /* EXR of LDA 0,B: its word comes from D */
    { 0140610, 0, 5, 0, 0100, 0031400, 0 },    /* EXR of STF I 0,B */
    { 0140610, 4, 1, 0, 0, 0140610, 0 },       /* EXR of EXR */
    { 0150416, 0, 2, 0, 0, 0400, 0 },          /* EXAM */
    { 0150417, 0, 2, 0, 0, 0400, 0 },          /* DEPO */
    { 0150416, 9, 2, 0, 0, 04000, 0 },         /* EXAM past the memory */
    { 0150417, 9, 2, 0, 0, 04000, 0 },         /* DEPO past the memory */
    { 0152412, 0, 9, 0, 0, 0, 0200 },          /* SRB of level 1 */
    { 0152402, 0, 9, 0, 0, 0, 0200 },          /* SRB of the running level */
    { 0152610, 0, 9, 0, 0, 0, 0200 },          /* LRB of level 1 */
    { 0152600, 0, 9, 0, 0, 0, 0200 },          /* LRB of the running level, though P stays */
    { 0153007, 1, 1, 0, 0, 0, 0 },             /* MON 7 */
    { 0160000, 4, 1, 0, 0, 0, 0 },             /* no instruction */
    { 0164306, 0, 1, 0, 0, 0, 0 },             /* IOX 306: a device's register is none */
    { 0164007, 7, 1, 0, 0, 0, 0 },             /* IOX 7 */
    { 0150415, 0, 1, 0, 0, 0, 0 },             /* IOXT of 300 */
    { 0143604, 7, 1, 0, 0, 0, 0 },             /* IDENT PL10 */
    { 0150001, 0, 1, 0, 0, 0, 0 },             /* TRA STS */
    { 0151000, 0, 1, 0, 0, 0, 0 },             /* WAIT */
    { 0004400, 0, 2, 0, 0177400, 0, 0 },       /* STA 0,B to a page table word */
    { 0022000, 9, 3, 0, 0, 0, 03777 },         /* STD 0,X whose second word fails */
    { 0022000, 9, 2, 0, 0, 0, 04000 },         /* STD 0,X whose first word fails */
    { 0152412, 9, 4, 0, 0, 0, 03776 },         /* SRB whose third word fails */
    { 0045400, 9, 2, 0, 04000, 0, 0 },         /* LDA I 0,B whose indirect word fails */
    { 0170405, 9, 1, 04000, 0, 0, 0 },         /* a fetch that fails */
};

/* A run in one of its three forms. */
static unsigned run_by(int form, uint64_t n)
{
    if (form == 0)
        return nd110_run(STATE, MEMORY, TABLES, n, RAN);
    if (form == 1)
        return nd110_run_to_interrupt(STATE, MEMORY, TABLES, n, RAN);
    return nd110_run_with_input(STATE, MEMORY, TABLES, n, NO_INPUT, TOLD);
}

/* Each row by every form: first no step, which makes none, then one. */
static void references_made(void)
{
    for (size_t i = 0; i < WORDS(made); i++) {
        for (int form = 0; form < 3; form++) {
            fill();
            IS(nd110_load(STATE, cleared, WORDS(cleared), MEMORY, TABLES), 0);
            m.state[P_0] = made[i].p;
            m.state[B_0] = made[i].b;
            m.state[D_0] = made[i].d;
            m.state[T_0] = 0300;
            m.state[X_0] = made[i].x;
            m.memory[0] = made[i].word;
            m.memory[0100] = 01000;
            IS(run_by(form, 0), 0);
            IS(steps[1], 0);
            IS(references[1], 0);
            references[1] = UNTOLD;
            IS(run_by(form, 1), 0);
            IS(steps[1], 1);
            IS(references[1], made[i].references);
            IS(m.state[IID], made[i].interrupt ? 1u << made[i].interrupt : 0);
            guards();
        }
    }
}

/* Kind 5: twelve words, each at its place; written as the fifth entry and loaded again; an image without them clears
 * them, one with some clears the others. */
static void device_images(void)
{
    static const uint16_t all[] = { 1, 5, 0, 0, 0, 12, 1, 0, 1, 1, 0, 1, 0301, 3, 0, 1, 1, 0177 };
    static const uint16_t some[] = { 1, 5, 0, 6, 0, 2, 0377, 2 };
    static const uint16_t twice[] = { 2, 5, 0, 0, 0, 2, 5, 0, 1, 0, 1, 0, 0, 0 };
    static const uint16_t beyond[] = { 1, 5, 0, 0, 0, 13, 0, 0, 0, 0, 0, 0, 0, 0, 0, 0, 0, 0, 0 };
    static uint16_t copy[IMAGE_WORDS];
    fill();
    IS(nd110_load(RECORD, all, WORDS(all), MEMORY, TABLES), 0);
    RECORD_IS({ 156, 1 }, { 158, 1 }, { 159, 1 }, { 161, 1 }, { 162, 0301 }, { 163, 3 }, { 165, 1 }, { 166, 1 },
              { 167, 0177 });
    IS(m.record.input_length, 3);
    IS(m.record.output_asks, 1);
    IS(nd110_write(RECORD, MEMORY, TABLES, m.out, IMAGE_WORDS), 0);
    IS(memcmp(m.out + 21, all + 1, 2 * 5), 0);
    IS(memcmp(m.out + IMAGE_WORDS - 12, all + 6, 2 * 12), 0);
    IS(m.out[IMAGE_WORDS], GUARD);
    memcpy(copy, m.out, sizeof copy);
    fill();
    IS(nd110_load(STATE, copy, WORDS(copy), MEMORY, TABLES), 0);
    ARE(m.state, { 156, 1 }, { 158, 1 }, { 159, 1 }, { 161, 1 }, { 162, 0301 }, { 163, 3 }, { 165, 1 }, { 166, 1 },
        { 167, 0177 });
    IS(nd110_load(STATE, twice, WORDS(twice), MEMORY, TABLES), 7);
    IS(nd110_load(STATE, beyond, WORDS(beyond), MEMORY, TABLES), 6);
    IS(m.state[162], 0301);
    IS(nd110_load(STATE, some, WORDS(some), MEMORY, TABLES), 0);
    ARE(m.state, { 162, 0377 }, { 163, 2 });
    IS(nd110_load(STATE, cleared, WORDS(cleared), MEMORY, TABLES), 0);
    ARE(m.state, { 0, 0 });
    guards();
}

/* SEX, TRA STS, REX, TRA STS, WAIT: bit 13 of the full status word is the extended flag, bit 12 is always 1. */
static const uint16_t modes[] = { 1, 1, 0, 0, 0, 5, 0150406, 0150001, 0150407, 0150001, 0151000 };

static void status(void)
{
    fill();
    IS(nd110_load(STATE, modes, WORDS(modes), MEMORY, TABLES), 0);
    IS(nd110_step(STATE, MEMORY, TABLES, &interrupt[1]), 0);
    ARE(m.state, { P_0, 1 }, { EXTENDED, 1 });
    IS(nd110_run(STATE, MEMORY, TABLES, 1, RAN), 0);
    IS(references[1], 1);
    ARE(m.state, { P_0, 2 }, { A_0, 030000 }, { EXTENDED, 1 });
    memcpy(&m.record, m.state, sizeof m.record);
    IS(nd110_step_lent(&m.record, MEMORY, TABLES, &interrupt[1]), 0);
    IS(m.record.extended, 0);
    RECORD_IS({ P_0, 3 }, { A_0, 030000 });
    IS(nd110_run_to_interrupt(RECORD, MEMORY, TABLES, 10, RAN), 0);
    IS(steps[1], 2);
    IS(reason[1], 0);
    IS(references[1], 2);
    RECORD_IS({ P_0, 5 }, { A_0, 010000 }, { STOPPED, 1 });
    ARE(m.tables, { 0, 0 });
    guards();
}

/* On ring 2 with paging on, normal table 2, begun in 19-bit mode. SEX in memory's page 0; then in page 1, by the long
 * entry: LDA 0,B from page 2, which is memory's page 0; STA 0,X to page 3, which may not be written; TRA PGS; REX; and
 * WAIT in page 0 again. Slot 128 is table word 128 in 19-bit mode and the words 256 and 257 in extended mode, pages 2
 * and 3 are the words 260 to 263. Bits 8-0 of a first word and 15-14 of a second mean nothing. */
static const uint16_t switching[] = {
    8,
    1, 0, 0, 0, 2,
    1, 0, 5, 0, 1,
    1, 0, 1025, 0, 4,
    2, 0, 3, 0, 5,
    3, 0, 2, 0, 9,
    4, 0, 128, 0, 1,
    4, 0, 256, 0, 2,
    4, 0, 260, 0, 4,
    0150406, 0321,
    0151000,
    0044400, 0006000, 0150003, 0150407,
    0004001, 0, 0, 0, 0006000,
    1, 0, 0, 0, 0, 0, 0, 0, 02002,
    0162000,
    0162777, 0140001,
    0042000, 0040000, 0042777, 0100001,
};
#define SWITCHING switching, WORDS(switching)

/* After each of its steps: the interrupt; P and A; stopped; IID; PGS, whether it is held, and the mode; the table words
 * 128, 256 and 260; the references from the start on. PGS has the slot of page 3, 131, as it is. */
static const struct {
    uint16_t interrupt, p, a, stopped, iid, pgs, held, extended, short_128, first_128, first_130, references;
} switched[] = {
    { 0, 1, 0, 0, 0, 0, 0, 1, 0166000, 0162777, 0042000, 1 },
    { 0, 2, 0321, 0, 0, 0, 0, 1, 0166000, 0166777, 0046000, 3 },
    { 2, 3, 0321, 0, 04, 0040203, 1, 1, 0166000, 0166777, 0046000, 5 },
    { 0, 4, 0040203, 0, 04, 0040203, 0, 1, 0166000, 0166777, 0046000, 6 },
    { 0, 5, 0040203, 0, 04, 0040203, 0, 0, 0166000, 0166777, 0046000, 7 },
    { 0, 6, 0040203, 1, 04, 0040203, 0, 0, 0166000, 0166777, 0046000, 8 },
};
#define SWITCHED(i)                                                                                  \
    { P_0, switched[i].p }, { B_0, 0004001 }, { A_0, switched[i].a }, { X_0, 0006000 },              \
    { PAGING, 1 }, { STOPPED, switched[i].stopped }, { IID, switched[i].iid },                       \
    { PGS, switched[i].pgs }, { PCR_0, 02002 }, { HELD, switched[i].held },                          \
    { EXTENDED, switched[i].extended }

static void switched_rest(size_t i)
{
    ARE(m.memory, { 0, 0150406 }, { 1, 0321 }, { 5, 0151000 }, { 1025, 0044400 }, { 1026, 0006000 }, { 1027, 0150003 },
        { 1028, 0150407 });
    ARE(m.tables, { 128, switched[i].short_128 }, { 256, switched[i].first_128 }, { 257, 0140001 },
        { 260, switched[i].first_130 }, { 261, 0040000 }, { 262, 0042777 }, { 263, 0100001 });
    guards();
}

/* By words: each step, then so many at once, then to the interrupt; and by lent steps. */
static void long_entries(void)
{
    fill();
    IS(nd110_load(STATE, SWITCHING, MEMORY, TABLES), 0);
    for (size_t i = 0; i < WORDS(switched); i++) {
        IS(nd110_step(STATE, MEMORY, TABLES, &interrupt[1]), 0);
        IS(interrupt[1], switched[i].interrupt);
        ARE(m.state, SWITCHED(i));
        switched_rest(i);
    }
    for (size_t i = 0; i < WORDS(switched); i++) {
        fill();
        IS(nd110_load(STATE, SWITCHING, MEMORY, TABLES), 0);
        IS(nd110_run(STATE, MEMORY, TABLES, i + 1, RAN), 0);
        IS(steps[1], i + 1);
        IS(reason[1], i == 5 ? 0 : 2);
        IS(references[1], switched[i].references);
        ARE(m.state, SWITCHED(i));
        switched_rest(i);
    }
    fill();
    IS(nd110_load(STATE, SWITCHING, MEMORY, TABLES), 0);
    IS(nd110_run_to_interrupt(STATE, MEMORY, TABLES, 10, RAN), 0);
    IS(steps[1], 3);
    IS(reason[1], 3);
    IS(references[1], 5);
    ARE(m.state, SWITCHED(2));
    switched_rest(2);
    fill();
    IS(nd110_load(RECORD, SWITCHING, MEMORY, TABLES), 0);
    IS(m.record.extended, 0);
    for (size_t i = 0; i < WORDS(switched); i++) {
        IS(nd110_step_lent(&m.record, MEMORY, TABLES, &interrupt[1]), 0);
        IS(interrupt[1], switched[i].interrupt);
        IS(m.record.extended, switched[i].extended);
        RECORD_IS(SWITCHED(i));
        switched_rest(i);
    }
}

/* The seven by T and X, paging off: STDTX, past the memory; STDTX to the first two words of the page tables; LDDTX from
 * the second and third; STZTX to the first; LDBTX from the second; STATX to the seventh; LDXTX from the first; LDATX
 * from memory; the eighth code, which is illegal; WAIT. T is 0 and X the address before the window of the mode. */
static const uint16_t by_t_and_x[] = {
    4,
    1, 0, 0, 0, 10,
    2, 0, 1, 0, 1,
    2, 0, 5, 0, 1,
    4, 0, 2, 0, 1,
    0143306, 0143316, 0143322, 0143315, 0143323, 0143374, 0143311, 0143350, 0143357, 0151000,
    0012345,
    0054321,
    0111111,
};

/* After each of its steps: the interrupt; D, P, B and A; whether X is still the first; stopped and IID; the table words
 * 0, 1 and 6; the references of the step, of the first the fetch and the first of its two words. LDBTX gives twice
 * 012345, 024712, with bits 15 to 9 set. */
static const struct {
    uint16_t interrupt, d, p, b, a, first_x, stopped, iid, t0, t1, t6, references;
} reached[] = {
    { 9, 0012345, 1, 0, 0054321, 1, 0, 01000, 0, 0, 0, 2 },
    { 0, 0012345, 2, 0, 0054321, 1, 0, 01000, 0054321, 0012345, 0, 3 },
    { 0, 0111111, 3, 0, 0012345, 1, 0, 01000, 0054321, 0012345, 0, 3 },
    { 0, 0111111, 4, 0, 0012345, 1, 0, 01000, 0, 0012345, 0, 2 },
    { 0, 0111111, 5, 0177712, 0012345, 1, 0, 01000, 0, 0012345, 0, 2 },
    { 0, 0111111, 6, 0177712, 0012345, 1, 0, 01000, 0, 0012345, 0012345, 2 },
    { 0, 0111111, 7, 0177712, 0012345, 0, 0, 01000, 0, 0012345, 0012345, 2 },
    { 0, 0111111, 8, 0177712, 0143374, 0, 0, 01000, 0, 0012345, 0012345, 2 },
    { 4, 0111111, 9, 0177712, 0143374, 0, 0, 01020, 0, 0012345, 0012345, 1 },
    { 0, 0111111, 10, 0177712, 0143374, 0, 1, 01020, 0, 0012345, 0012345, 1 },
};

static void reached_rest(size_t i)
{
    ARE(m.memory, { 0, 0143306 }, { 1, 0143316 }, { 2, 0143322 }, { 3, 0143315 }, { 4, 0143323 }, { 5, 0143374 },
        { 6, 0143311 }, { 7, 0143350 }, { 8, 0143357 }, { 9, 0151000 });
    ARE(m.tables, { 0, reached[i].t0 }, { 1, reached[i].t1 }, { 2, 0111111 }, { 6, reached[i].t6 });
    guards();
}

/* By words and by lent steps, in both modes; then by runs of one step, and by one of all of them, 20 references. */
static void physical(void)
{
    for (uint16_t mode = 0; mode < 2; mode++) {
        uint16_t x = mode ? 0176777 : 0177377;
        fill();
        IS(nd110_load(STATE, by_t_and_x, WORDS(by_t_and_x), MEMORY, TABLES), 0);
        m.state[X_0] = x;
        m.state[EXTENDED] = mode;
        memcpy(&m.record, m.state, sizeof m.record);
        for (size_t i = 0; i < WORDS(reached); i++) {
            IS(nd110_step(STATE, MEMORY, TABLES, &interrupt[1]), 0);
            IS(interrupt[1], reached[i].interrupt);
            ARE(m.state, { D_0, reached[i].d }, { P_0, reached[i].p }, { B_0, reached[i].b }, { A_0, reached[i].a },
                { X_0, reached[i].first_x ? x : 0 }, { STOPPED, reached[i].stopped }, { IID, reached[i].iid },
                { EXTENDED, mode });
            reached_rest(i);
        }
        m.tables[0] = m.tables[1] = m.tables[6] = 0;
        for (size_t i = 0; i < WORDS(reached); i++) {
            IS(nd110_step_lent(&m.record, MEMORY, TABLES, &interrupt[1]), 0);
            IS(interrupt[1], reached[i].interrupt);
            IS(m.record.registers[0][ND110_A], reached[i].a);
            IS(m.record.registers[0][ND110_B], reached[i].b);
            IS(m.record.extended, mode);
            reached_rest(i);
        }
        IS(memcmp(&m.record, m.state, sizeof m.record), 0);
        for (int whole = 0; whole < 2; whole++) {
            IS(nd110_load(STATE, by_t_and_x, WORDS(by_t_and_x), MEMORY, TABLES), 0);
            m.state[X_0] = x;
            m.state[EXTENDED] = mode;
            for (size_t i = 0; i < WORDS(reached) && !whole; i++) {
                IS(nd110_run(STATE, MEMORY, TABLES, 1, RAN), 0);
                IS(references[1], reached[i].references);
                reached_rest(i);
            }
            if (whole) {
                IS(nd110_run(STATE, MEMORY, TABLES, 100, RAN), 0);
                IS(steps[1], 10);
                IS(references[1], 20);
            }
            IS(memcmp(&m.record, m.state, sizeof m.record), 0);
        }
    }
}

/* Written in extended mode and loaded again. Then images of 26 to 29 control words and of 256, 512 and 513 table words,
 * over words that are filled: what is not named is 0. */
static void extended_images(void)
{
    static uint16_t copy[IMAGE_WORDS], words[6 + 513] = { 1 };
    static const struct {
        uint16_t kind, len, answer;
    } loads[] = { { 3, 26, 0 }, { 3, 27, 0 }, { 3, 28, 0 }, { 3, 29, 6 }, { 4, 256, 0 }, { 4, 512, 0 }, { 4, 513, 6 } };
    fill();
    IS(nd110_load(RECORD, SWITCHING, MEMORY, TABLES), 0);
    IS(nd110_run(RECORD, MEMORY, TABLES, 3, RAN), 0);
    IS(references[1], 5);
    IS(nd110_write(RECORD, MEMORY, TABLES, m.out, IMAGE_WORDS), 0);
    IS(m.out[26 + 2048 + 128 + 27], 1);
    IS(m.out[26 + 2048 + 128 + 28 + 263], 0100001);
    IS(m.out[IMAGE_WORDS], GUARD);
    memcpy(copy, m.out, sizeof copy);
    fill();
    IS(nd110_load(RECORD, copy, WORDS(copy), MEMORY, TABLES), 0);
    RECORD_IS(SWITCHED(2));
    switched_rest(2);
    for (size_t i = 0; i < WORDS(loads); i++) {
        uint16_t kind = loads[i].kind, len = loads[i].len;
        fill();
        words[1] = kind;
        words[5] = len;
        for (size_t k = 0; k < len; k++)
            words[6 + k] = kind == 4 ? (uint16_t)(0100001 + k) : k == 2 || k >= 26;
        IS(nd110_load(STATE, words, 6u + len, MEMORY, TABLES), loads[i].answer);
        if (loads[i].answer == 6) {
            IS(m.state[0], GUARD);
            IS(m.tables[0], GUARD);
        } else if (kind == 3) {
            ARE(m.state, { PAGING, 1 }, { HELD, len > 26 }, { EXTENDED, len > 27 });
            ARE(m.tables, { 0, 0 });
        } else {
            ARE(m.state, { 0, 0 });
            IS(m.tables[0], 0100001);
            IS(m.tables[255], 0100400);
            IS(m.tables[256], len > 256 ? 0100401 : 0);
            IS(m.tables[511], len > 256 ? 0101000 : 0);
        }
        guards();
    }
}

/* The largest memory: its last word, by an entry of page 16,383 and by T and X; the word before it; one past it, which
 * gives 9. LDA 0,B; SAA 5; STATX; LDDTX; LDATX one past; STDTX and STATX with other X and T; WAIT. On ring 2 in
 * extended mode with paging on. */
static const uint16_t largest_image[] = {
    6,
    1, 0, 0, 0, 8,
    1, 0377, 0177777, 0, 1,
    2, 0, 3, 0, 5,
    3, 0, 2, 0, 9,
    3, 0, 27, 0, 1,
    4, 0, 0, 0, 4,
    0044400, 0170405, 0143304, 0143302, 0143320, 0143306, 0143374, 0151000,
    0123321,
    03777, 0, 0, 0377, 0177776,
    1, 0, 0, 0, 0, 0, 0, 0, 2,
    1,
    0162000, 0, 0162000, 037777,
};
#define LARGEST_IMAGE largest_image, WORDS(largest_image)
#define LARGEST 16777216

/* One page more than the largest memory, one word more, one word less: every function refuses 1. */
static void refused_sizes(uint16_t *memory, uint16_t *out)
{
    static const size_t wrong[] = { 16778240, 16777217, 16777215 };
    for (size_t i = 0; i < WORDS(wrong); i++) {
        size_t len = wrong[i];
        IS(nd110_step(STATE, memory, len, TABLES, &interrupt[1]), 1);
        IS(nd110_step_lent(&m.record, memory, len, TABLES, &interrupt[1]), 1);
        IS(nd110_run(STATE, memory, len, TABLES, 10, RAN), 1);
        IS(nd110_run_to_interrupt(STATE, memory, len, TABLES, 10, RAN), 1);
        IS(nd110_raise(STATE, 10, memory, len, TABLES), 1);
        IS(nd110_raise_lent(&m.record, 10, memory, len, TABLES), 1);
        IS(nd110_load(STATE, LARGEST_IMAGE, memory, len, TABLES), 1);
        IS(nd110_write(STATE, memory, len, TABLES, out, LARGEST + 706), 1);
        IS(nd110_tick(STATE, memory, len, TABLES), 1);
        IS(nd110_type(STATE, 0101, memory, len, TABLES), 1);
        IS(nd110_read_out(STATE, memory, len, TABLES, &character[1]), 1);
        IS(nd110_run_with_input(STATE, memory, len, TABLES, 10, NO_INPUT, TOLD), 1);
        IS(nd110_view(1, 0, 1, memory, len, TABLES, OUT), 1);
        IS(nd110_view_answer(1, 0, 1, memory, len, TABLES), 1);
    }
}

/* The image's machine by steps, a run and a run to the interrupt, then a raise. */
static void largest_steps(uint16_t *memory)
{
    IS(nd110_load(RECORD, LARGEST_IMAGE, memory, LARGEST, TABLES), 0);
    IS(memory[LARGEST - 1], 0123321);
    IS(memory[LARGEST - 2], 0);
    IS(nd110_step_lent(&m.record, memory, LARGEST, TABLES, &interrupt[1]), 0);
    IS(interrupt[1], 0);
    IS(m.record.registers[0][ND110_A], 0123321);
    IS(nd110_step(RECORD, memory, LARGEST, TABLES, &interrupt[1]), 0);
    IS(m.record.registers[0][ND110_A], 5);
    IS(nd110_run(RECORD, memory, LARGEST, TABLES, 1, RAN), 0);
    IS(references[1], 2);
    IS(memory[LARGEST - 2], 5);
    IS(nd110_run_to_interrupt(RECORD, memory, LARGEST, TABLES, 10, RAN), 0);
    IS(steps[1], 2);
    IS(reason[1], 3);
    IS(references[1], 5);
    RECORD_IS({ D_0, 0123321 }, { P_0, 5 }, { B_0, 03777 }, { A_0, 5 }, { T_0, 0377 }, { X_0, 0177776 }, { PAGING, 1 },
              { IID, 01000 }, { PCR_0, 2 }, { EXTENDED, 1 });
    ARE(m.tables, { 0, 0166000 }, { 2, 0166000 }, { 3, 037777 });
    /* STDTX at the last word, and STATX at T = X = 177777 with displacement 7: 9 too, and nothing is stored */
    m.record.registers[0][ND110_X] = 0177777;
    IS(nd110_step_lent(&m.record, memory, LARGEST, TABLES, &interrupt[1]), 0);
    IS(interrupt[1], 9);
    IS(memory[LARGEST - 1], 0123321);
    m.record.registers[0][ND110_T] = 0177777;
    IS(nd110_step(RECORD, memory, LARGEST, TABLES, &interrupt[1]), 0);
    IS(interrupt[1], 9);
    IS(memory[6], 0143374);
    IS(m.record.registers[0][ND110_P], 7);
    IS(nd110_raise_lent(&m.record, 10, memory, LARGEST, TABLES), 0);
    IS(m.record.pid, 02000);
    IS(nd110_tick(RECORD, memory, LARGEST, TABLES), 0);
    IS(m.record.clock_ready, 1);
    IS(nd110_type(RECORD, 0101, memory, LARGEST, TABLES), 0);
    IS(m.record.input_character, 0101);
    IS(nd110_read_out(RECORD, memory, LARGEST, TABLES, &character[1]), 0);
    IS(character[1], 256);
    IS(nd110_run_with_input(RECORD, memory, LARGEST, TABLES, 0, NO_INPUT, TOLD), 0);
    IS(reason[1], 2);
    IS(references[1], 0);
    IS(nd110_run(RECORD, memory, LARGEST, TABLES, 10, RAN), 0);
    IS(steps[1], 1);
    IS(reason[1], 0);
    IS(references[1], 1);
    IS(memory[LARGEST - 1], 0123321);
}

/* Viewed, written, cleared, and loaded again. */
static void largest_images(uint16_t *memory, uint16_t *out)
{
    static const uint16_t contents[] = {
        5, 1, 0, 0, 256, 0, 2, 0, 0, 0, 128, 3, 0, 0, 0, 28, 4, 0, 0, 0, 512, 5, 0, 0, 0, 12
    };
    nd110_state was;
    m.record.output_character = 0152;
    was = m.record;
    IS(nd110_view(1, LARGEST - 2, 2, memory, LARGEST, TABLES, OUT), 0);
    IS(m.out[0], 5);
    IS(m.out[1], 0123321);
    IS(nd110_view(1, LARGEST - 1, 2, memory, LARGEST, TABLES, OUT), 9);
    IS(nd110_view_answer(1, 0, LARGEST, memory, LARGEST, TABLES), 0);
    IS(nd110_view_answer(1, LARGEST, 1, memory, LARGEST, TABLES), 9);
    out[LARGEST + 706] = GUARD;
    IS(nd110_write(RECORD, memory, LARGEST, TABLES, out, LARGEST + 705), 10);
    IS(nd110_write(RECORD, memory, LARGEST, TABLES, out, LARGEST + 707), 0);
    IS(memcmp(out, contents, sizeof contents), 0);
    IS(memcmp(out + 26, memory, 2u * LARGEST), 0);
    IS(memcmp(out + 26 + LARGEST, &was, 2 * 156), 0);
    IS(out[26 + LARGEST + 156 + 3], 037777);
    IS(memcmp(out + 26 + LARGEST + 156 + 512, (uint16_t *)&was + 156, 2 * 12), 0);
    IS(out[LARGEST + 705], 0152);
    IS(out[LARGEST + 706], GUARD);
    memset(memory, 0, 2u * LARGEST);
    fill();
    IS(nd110_load(RECORD, out, LARGEST + 706, memory, LARGEST, TABLES), 0);
    IS(memcmp(&m.record, &was, sizeof was), 0);
    IS(memcmp(out + 26, memory, 2u * LARGEST), 0);
    ARE(m.tables, { 0, 0166000 }, { 2, 0166000 }, { 3, 037777 });
    guards();
}

static void largest(void)
{
    uint16_t *memory = calloc(LARGEST + 1024, sizeof *memory);
    uint16_t *out = calloc(LARGEST + 707, sizeof *out);
    IS(memory && out, 1);
    if (memory && out) {
        loaded();
        memcpy(&m.record, m.state, sizeof m.record);
        refused_sizes(memory, out);
        IS(memory[0], 0);
        IS(out[0], 0);
        largest_steps(memory);
        IS(memory[LARGEST], 0);
        largest_images(memory, out);
    }
    free(memory);
    free(out);
}

/* A floating number in both forms: A D, and T A D. The first five are document 002's, with +3 as document 02 puts it
 * right and the long row that 002 prints for it, 2 to the 159th. Then ends of the match with either sign, the lowest
 * mantissa bit of the short form, and a mantissa whose parts differ. */
static const struct {
    uint16_t s[ND110_SHORT_WORDS], l[ND110_LONG_WORDS];
} forms[] = {
    { { 0, 0 }, { 0, 0, 0 } },
    { { 0040100, 0 }, { 0040001, 0100000, 0 } },
    { { 0140100, 0 }, { 0140001, 0100000, 0 } },
    { { 0040240, 0 }, { 0040002, 0140000, 0 } },
    { { 0064000, 0 }, { 0040240, 0100000, 0 } },
    { { 0000100, 0 }, { 0037401, 0100000, 0 } },
    { { 0100100, 0 }, { 0137401, 0100000, 0 } },
    { { 0077777, 0177777 }, { 0040377, 0177777, 0177000 } },
    { { 0177777, 0177777 }, { 0140377, 0177777, 0177000 } },
    { { 0040100, 1 }, { 0040001, 0100000, 001000 } },
    { { 0040152, 0052525 }, { 0040001, 0152252, 0125000 } },
};

/* Short numbers with exponent field 0 that are not zero: all refused 15. Minus zero is the first. */
static const uint16_t malformed[][ND110_SHORT_WORDS] = {
    { 0100000, 0 }, { 0, 1 }, { 0, 0100000 }, { 1, 0 }, { 077, 0177777 }, { 0100077, 0177777 },
};

/* Long numbers and their refusals. Of those that fail several tests the first is told. */
static const struct {
    uint16_t answer, l[ND110_LONG_WORDS];
} refused_longs[] = {
    { 15, { 0100000, 0, 0 } },
    { 15, { 0, 0, 1 } },
    { 15, { 1, 0, 0 } },
    { 15, { 0, 077777, 0 } },
    { 15, { 0040001, 0, 0 } },
    { 15, { 0140001, 077777, 0177000 } },
    { 15, { 0037400, 077777, 0 } },
    { 15, { 0040001, 077777, 1 } },
    { 15, { 0040400, 077777, 0177777 } },
    { 16, { 0, 0100000, 0 } },
    { 16, { 0037400, 0100000, 0 } },
    { 16, { 0137400, 0100000, 0 } },
    { 16, { 0040400, 0100000, 0 } },
    { 16, { 0140400, 0177777, 0177000 } },
    { 16, { 077777, 0177777, 0177000 } },
    { 16, { 0037400, 0100000, 1 } },
    { 16, { 0040400, 0100000, 0400 } },
    { 17, { 0040001, 0100000, 1 } },
    { 17, { 0040001, 0100000, 0400 } },
    { 17, { 0037401, 0100000, 0777 } },
    { 17, { 0140377, 0177777, 0177777 } },
};

/* Where a number is converted to, between words that no call may touch. */
static uint16_t number[7];
#define NUMBER (number + 1)

static void number_fill(void)
{
    for (size_t i = 0; i < WORDS(number); i++)
        number[i] = GUARD;
}

/* The number begins with these words; the others are as they were filled. */
static void number_is(int line, const uint16_t *want, size_t len)
{
    for (size_t i = 0; i < WORDS(number); i++)
        is(line, "a word of the number", number[i], 1 <= i && i <= len ? want[i - 1] : GUARD);
}
#define NUMBER_IS(want, len) number_is(__LINE__, (want), (len))
#define NUMBER_LEFT() NUMBER_IS(NULL, 0)

/* Each way, and back over the words that were read. */
static void converted(void)
{
    for (size_t i = 0; i < WORDS(forms); i++) {
        const uint16_t *s = forms[i].s, *l = forms[i].l;
        const uint16_t over[] = { s[0], s[1], l[2] };
        number_fill();
        IS(nd110_long_to_short(l[0], l[1], l[2], NUMBER, 2), 0);
        NUMBER_IS(s, 2);
        number_fill();
        IS(nd110_short_to_long(s[0], s[1], NUMBER, 3), 0);
        NUMBER_IS(l, 3);
        IS(nd110_long_to_short(NUMBER[0], NUMBER[1], NUMBER[2], NUMBER, 2), 0);
        NUMBER_IS(over, 3);
        IS(nd110_short_to_long(NUMBER[0], NUMBER[1], NUMBER, 3), 0);
        NUMBER_IS(l, 3);
    }
}

static void not_converted(void)
{
    number_fill();
    for (size_t i = 0; i < WORDS(malformed); i++)
        IS(nd110_short_to_long(malformed[i][0], malformed[i][1], NUMBER, 3), 15);
    for (size_t i = 0; i < WORDS(refused_longs); i++) {
        const uint16_t *l = refused_longs[i].l;
        IS(nd110_long_to_short(l[0], l[1], l[2], NUMBER, 2), refused_longs[i].answer);
    }
    for (unsigned bit = 0; bit < 9; bit++)
        IS(nd110_long_to_short(0040002, 0140000, (uint16_t)(1u << bit), NUMBER, 2), 17);
    /* another length is told before all else */
    for (size_t len = 0; len <= 5; len++) {
        if (len != 3) {
            IS(nd110_short_to_long(0040240, 0, NUMBER, len), 255);
            IS(nd110_short_to_long(0100000, 0, NUMBER, len), 255);
        }
        if (len != 2) {
            IS(nd110_long_to_short(0040002, 0140000, 0, NUMBER, len), 255);
            IS(nd110_long_to_short(0100000, 0, 1, NUMBER, len), 255);
        }
    }
    IS(nd110_short_to_long(0040240, 0, ND110_LENT((uint16_t *)NULL, 3)), 255);
    NUMBER_LEFT();
}

int main(void)
{
    places();
    fields();
    through();
    to_interrupt();
    lent();
    lent_store();
    held();
    lent_held();
    held_images();
    viewed();
    written();
    refused();
    refused_words();
    registers();
    idents();
    inputs();
    ended();
    references_made();
    device_images();
    status();
    long_entries();
    physical();
    extended_images();
    largest();
    converted();
    not_converted();
    if (failures == 0)
        printf("the C calls are as expected\n");
    return failures != 0;
}
