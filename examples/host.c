/*
 * A small host in C, to learn from; rust/nd110/examples/host.rs is the same in Rust.
 *
 * `host IMAGE` loads an image file into 16 pages, steps it, raises level 10, runs it to its end and shows memory.
 * What it prints for examples/add.image is in examples/host.expected. No argument, a file that cannot be read or an
 * image that is refused is told on standard error, and the exit status is 1.
 */
#include "nd110.h"
#include <errno.h>
#include <stdio.h>
#include <stdlib.h>
#include <string.h>

/* A machine is three pieces of the host's memory: the state, here as a record, memory and page tables. */
static nd110_state state;
static uint16_t memory[16 * ND110_PAGE_WORDS];
static uint16_t tables[ND110_TABLE_WORDS];

/* More words than any image for this memory has: its list of contents, memory, state and tables. */
static uint16_t image[1 + 5 * 32 + 16 * ND110_PAGE_WORDS + ND110_STATE_WORDS + ND110_TABLE_WORDS + 1];

#define WORDS(a) (sizeof(a) / sizeof((a)[0]))
#define LENT(a) ND110_LENT((a), WORDS(a))

static void fail(const char *name, const char *why)
{
    fprintf(stderr, "host: %s: %s\n", name, why);
    exit(1);
}

static void refused(const char *name, unsigned answer)
{
    fprintf(stderr, "host: %s: refused %u\n", name, answer);
    exit(1);
}

/* The words of an image file, which has the high byte of each first. */
static size_t read_image(const char *name)
{
    size_t bytes = 0;
    int byte;
    FILE *file = fopen(name, "rb");
    if (!file)
        fail(name, strerror(errno));
    while ((byte = fgetc(file)) != EOF) {
        if (bytes / 2 == WORDS(image))
            fail(name, "longer than any image for this memory");
        image[bytes / 2] = bytes % 2 ? (uint16_t)(image[bytes / 2] | byte) : (uint16_t)(byte << 8);
        bytes++;
    }
    if (ferror(file))
        fail(name, strerror(errno));
    fclose(file);
    if (bytes % 2)
        fail(name, "an odd count of bytes");
    return bytes / 2;
}

static unsigned reg(unsigned number)
{
    return state.registers[state.level][number];
}

/* One step, and the interrupt that it gave (0 if none). */
static void step(const char *name)
{
    uint16_t interrupt = 0;
    unsigned answer = nd110_step_lent(&state, LENT(memory), LENT(tables), &interrupt);
    if (answer != ND110_DONE)
        refused(name, answer);
    printf("step: interrupt %u, P %06o, A %06o\n", (unsigned)interrupt, reg(ND110_P), reg(ND110_A));
}

/* A device raises a level. A refusal is an answer like others: the machine is as it was. */
static void raise_level(uint16_t level)
{
    unsigned answer = nd110_raise_lent(&state, level, LENT(memory), LENT(tables));
    printf("raise of %u: answer %u, PID %06o\n", (unsigned)level, answer, (unsigned)state.pid);
}

/* At most n steps, and the memory references that they made. */
static void run(const char *name, uint64_t n)
{
    uint64_t steps = 0, references = 0;
    uint16_t reason = 0;
    unsigned answer = nd110_run(ND110_WORDS(&state), LENT(memory), LENT(tables), n, &steps, &reason, &references);
    if (answer != ND110_DONE)
        refused(name, answer);
    printf("run: steps %llu, reason %u, references %llu, P %06o\n", (unsigned long long)steps, (unsigned)reason,
           (unsigned long long)references, reg(ND110_P));
}

/* A part of memory, read in place: nd110_view would copy it. */
static void view(size_t start, size_t len)
{
    unsigned answer = nd110_view_answer(ND110_MEMORY, start, len, LENT(memory), LENT(tables));
    printf("view of %zu words at %zu:", len, start);
    if (answer != ND110_DONE)
        printf(" refused %u", answer);
    for (size_t i = 0; answer == ND110_DONE && i < len; i++)
        printf(" %06o", (unsigned)memory[start + i]);
    printf("\n");
}

int main(int count, char **words)
{
    const char *name = count == 2 ? words[1] : NULL;
    unsigned answer;
    if (!name) {
        fprintf(stderr, "usage: host IMAGE\n");
        return 1;
    }
    if (strcmp(name, "--help") == 0) {
        printf("usage: host IMAGE\n");
        return 0;
    }
    answer = nd110_load(ND110_WORDS(&state), image, read_image(name), LENT(memory), LENT(tables));
    if (answer != ND110_DONE)
        refused(name, answer);
    step(name);
    raise_level(10);
    raise_level(14);
    step(name);
    run(name, 100);
    view(0, 3);
    view(16383, 2);
    return 0;
}
