/*
 * nd110.h: the proved ND-110 engine for a board's host program.
 *
 * docs/HOST.md tells how to build the archive and link it; examples/host.c is a host to learn from.
 *
 * Every function answers ND110_DONE or the number of a refusal, and a refused call changes no lent word. That is
 * proved, for whatever numbers, lengths and words are handed in; nothing is required of the caller beyond what is said
 * under "What cannot be seen".
 *
 * Lent words
 *   state    ND110_STATE_WORDS words in image order, 128 registers, 28 control words and 12 words of the devices:
 *            register n of level l is word 8 * l + n, control word n is word 128 + n, device word n is word 156 + n
 *   memory   1,024 to 16,777,216 words, a multiple of 1,024, in 19-bit and in extended mode
 *   tables   ND110_TABLE_WORDS words, in either mode: four page tables of 64 entries
 *   Each is handed in as a place and its length in words, but for a record, which is a place alone. The engine keeps
 *   nothing between calls and allocates nothing: a machine is these three, they belong to the caller, and the caller
 *   may read and write them between calls.
 *
 * The state as a record
 *   nd110_state names the same ND110_STATE_WORDS words in the same order, with nothing between them: a record and the
 *   state words of the other functions are one and the same words. The functions whose names end in _lent take a
 *   pointer to a record, which has its size by its type; the others take ND110_WORDS(&record).
 *
 * The page tables by mode (control word ND110_EXTENDED: 0 in 19-bit mode, 1 in extended mode)
 *   The entry of virtual page v in table t has slot s = 64 * t + v.
 *   19-bit     one word, tables[s]: bit 15 write, 14 read, 13 fetch permitted, 12 WIP, 11 PGU, 10-9 ring, 8-0 physical
 *              page. tables[256] to tables[511] are not used, and stay
 *   extended   two words: tables[2 * s] has bits 15-9 as above, tables[2 * s + 1] the physical page in bits 13-0
 *   SEX, REX and a host's store to ND110_EXTENDED change the mode and no table word: from then on the same words are
 *   read in the other form.
 *
 * The devices
 *   The real-time clock and terminal 1 of document 000, section 6.9. The caller is what stands behind them: it hands in
 *   a tick every 20 ms and the characters that are typed, and reads out the character that was sent, all between steps
 *   (nd110_tick, nd110_type, nd110_read_out, or a list of them by nd110_run_with_input). docs/DEVICES.md has their
 *   registers and what is not there.
 *
 * Memory references
 *   Each of the three runs tells how many memory references its steps made: words fetched, indirect words, and operand
 *   words read or written, each access of a word one, so that MIN makes two beside its fetch. An access that fails is
 *   one, and none comes after it in its step. A word of the page tables that an address of the program reaches counts
 *   like any other; looking an entry up and marking it is none, nor is a device's register. A change of level makes
 *   none, and no step makes more than nine. The number is the sum's low 64 bits, 0 for no step. docs/HOST.md has it by
 *   instruction.
 *
 * What can be seen, and is refused: every length; every word of the state; every word of an image; the level of a
 * raise; a character typed while the last is unread; the kind, start and length of a view, sums that would wrap
 * included; every word of a number to be converted.
 *
 * What cannot be seen, and is the caller's to ensure:
 *   - a place that is null, or that no longer holds words (dangling): it is read or written all the same.
 *     ND110_LENT(p, n) hands in the length 0 for a null pointer, which is refused wherever words are needed; a record
 *     that is lent, interrupt, character, handed, steps, reason and references must not be null;
 *   - a length greater than what is lent there: the call reads or writes past the end;
 *   - a program that was compiled with the header of an earlier version: its runs hand in no place for the references,
 *     and before version 5 its record is shorter; the call writes, or reads, where it must not (docs/HOST.md);
 *   - places that overlap, where the call writes one of them: each is taken to be alone. image and out are lent words
 *     too, and so are the three lists of nd110_run_with_input;
 *   - a place that is not aligned for a word, of at for a number of 64 bits;
 *   - another thread that writes the same words during the call. Calls on different words may run at the same time.
 */
#ifndef ND110_H
#define ND110_H

#include <stddef.h>
#include <stdint.h>

#ifdef __cplusplus
extern "C" {
#endif

/* The version of this interface; docs/HOST.md tells what each changed. */
#define ND110_VERSION 6

/* Sizes, in words. An image that nd110_write makes has memory + ND110_IMAGE_EXTRA words. */
#define ND110_STATE_WORDS 168
#define ND110_TABLE_WORDS 512
#define ND110_PAGE_WORDS 1024
#define ND110_MEMORY_MOST 16777216
#define ND110_IMAGE_EXTRA 706

/* Words of the floating forms: A D of the short one, 32 bits, and T A D of the long one, 48 bits. */
#define ND110_SHORT_WORDS 2
#define ND110_LONG_WORDS 3

/* Answers: done, document 01's refusals, those of document 02's devices and conversions, and a call that is no
 * operation (255, as document 02 gives 11 to 18 to its requests). */
#define ND110_DONE 0
#define ND110_SIZES 1           /* memory or page tables of another size; before all others but ND110_BAD_CALL */
#define ND110_STATE 2           /* a state out of its ranges; of load, the image's */
#define ND110_RAISE_LEVEL 3     /* raise: a level other than 10 to 13 and 15 */
#define ND110_CONTENTS 4        /* load: contents short, or over 32 entries */
#define ND110_KIND 5            /* load: an entry of unknown kind */
#define ND110_TARGET 6          /* load: an entry's start plus length beyond its target's size */
#define ND110_OVERLAP 7         /* load: an entry that covers a word already named */
#define ND110_BODIES 8          /* load: bodies other than exactly the rest of the image */
#define ND110_VIEW 9            /* view: start plus length beyond the target's size */
#define ND110_OUTPUT 10         /* write: fewer than memory + ND110_IMAGE_EXTRA words of output */
#define ND110_UNREAD 11         /* type: the character typed last is unread */
#define ND110_MALFORMED 15      /* not zero, and a short exponent field or the top bit of a long mantissa is 0 */
#define ND110_EXPONENT_RANGE 16 /* long to short: an exponent field beyond 16,129 to 16,639 */
#define ND110_PRECISION 17      /* long to short: any of the nine lowest mantissa bits is set */
#define ND110_BAD_CALL 255      /* a state of other than 168 words; view: an unknown kind, or too few words of output;
                                 * a run with input: lists of different lengths; a conversion: an output of other than
                                 * the form's words */

/* Why a run ended. */
#define ND110_STOPPED 0      /* the machine is stopped */
#define ND110_LEVEL 1        /* a change of level is due (to the first interrupt, and with input, only) */
#define ND110_SPENT 2        /* as many steps as asked were taken */
#define ND110_INTERRUPTED 3  /* the last step gave an interrupt (to the first interrupt, and with input, only) */

/* Kinds of a view: the numbers of an image's kinds. */
#define ND110_MEMORY 1
#define ND110_TABLES 4

/* An input of nd110_run_with_input as a word. Below 256 it is the level to raise; every other word that is not named
 * here is a raise too, which is refused: ND110_RAISE_LEVEL. */
#define ND110_TICK 256
#define ND110_READ_OUT 257
#define ND110_TYPED 512      /* plus the character, 0 to 255 */

/* What a read out tells where no character waits. */
#define ND110_NO_CHARACTER 256

/* Registers of a level, and control words. ND110_PCR is the PCR of level 0, and those of levels 1 to 15 follow it.
 * ND110_PGS_HELD is 1 from the paging fault (interrupt 2 or 3) that wrote PGS until TRA PGS is executed, and PGS keeps
 * that fault while it is 1. It is 0 or 1 whatever PGS is; a PGS that is held may be 0.
 * ND110_EXTENDED is the extended flag, 1 after SEX and 0 after REX: which form the page tables have, and where their
 * window stands, 177400 to 177777 while it is 0 and 177000 to 177777 while it is 1. */
enum { ND110_STS, ND110_D, ND110_P, ND110_B, ND110_L, ND110_A, ND110_T, ND110_X };
enum {
    ND110_CONTROL_LEVEL, ND110_INTERRUPTS_ON, ND110_PAGING_ON, ND110_IS_STOPPED,
    ND110_PID, ND110_PIE, ND110_PVL, ND110_IID, ND110_IIE, ND110_PGS, ND110_PCR,
    ND110_PGS_HELD = 26, /* ND110_PCR + 16 */
    ND110_EXTENDED = 27
};

/* The devices' words: of the clock, of the terminal's input and of its output. Characters are 0 to 255, the length is 0
 * to 3, the others are 0 or 1, in any combination. ENABLED is bit 0 of the control word written last; READY, UNREAD and
 * not WAITS are bit 3 of the status; ASKS is the interrupt flip-flop, which IDENT alone clears; LENGTH is bits 12-11 of
 * the input's control word, for characters of 8 less so many bits. A character stays when it is read or read out. */
enum {
    ND110_CLOCK_ENABLED, ND110_CLOCK_READY, ND110_CLOCK_ASKS,
    ND110_INPUT_ENABLED, ND110_INPUT_UNREAD, ND110_INPUT_ASKS, ND110_INPUT_CHARACTER, ND110_INPUT_LENGTH,
    ND110_OUTPUT_ENABLED, ND110_OUTPUT_WAITS, ND110_OUTPUT_ASKS, ND110_OUTPUT_CHARACTER
};
#define ND110_REGISTER(level, number) (8 * (level) + (number))
#define ND110_CONTROL(number) (128 + (number))
#define ND110_DEVICE(number) (156 + (number))

/* Lent words as the two arguments that they are; a null pointer goes with length 0. The pointer is evaluated twice. */
static inline size_t nd110_words(const uint16_t *p, size_t n) { return p ? n : 0; }
#define ND110_LENT(p, n) (p), nd110_words((p), (n))

/* A state as a record: registers[l][n] is register n of level l (ND110_STS to ND110_X), then the control words and the
 * devices' words. */
typedef struct nd110_state {
    uint16_t registers[16][8];
    uint16_t level;
    uint16_t interrupts_on;
    uint16_t paging_on;
    uint16_t stopped;
    uint16_t pid;
    uint16_t pie;
    uint16_t pvl;
    uint16_t iid;
    uint16_t iie;
    uint16_t pgs;
    uint16_t pcr[16];
    uint16_t pgs_held;
    uint16_t extended;
    uint16_t clock_enabled;
    uint16_t clock_ready;
    uint16_t clock_asks;
    uint16_t input_enabled;
    uint16_t input_unread;
    uint16_t input_asks;
    uint16_t input_character;
    uint16_t input_length;
    uint16_t output_enabled;
    uint16_t output_waits;
    uint16_t output_asks;
    uint16_t output_character;
} nd110_state;

/* Does not compile, as C or C++, if the record has other than ND110_STATE_WORDS words. */
typedef char nd110_state_words[sizeof(nd110_state) == ND110_STATE_WORDS * sizeof(uint16_t) ? 1 : -1];

/* The words of a record, given by a pointer to it, as the two arguments that the other functions take. The pointer is
 * evaluated twice; a null pointer goes with length 0.
 *   nd110_run(ND110_WORDS(&record), memory, memory_len, tables, tables_len, n, &steps, &reason, &references) */
static inline uint16_t *nd110_record(nd110_state *record) { return (uint16_t *)record; }
#define ND110_WORDS(record) ND110_LENT(nd110_record(record), ND110_STATE_WORDS)

/* One step. *interrupt gets the number of the interrupt that it gave, 0 if none.
 * ND110_BAD_CALL, ND110_SIZES, ND110_STATE. */
uint16_t nd110_step(uint16_t *state, size_t state_len, uint16_t *memory, size_t memory_len,
                    uint16_t *tables, size_t tables_len, uint16_t *interrupt);

/* The same step on a record, which has the state after it. ND110_SIZES, ND110_STATE. */
uint16_t nd110_step_lent(nd110_state *state, uint16_t *memory, size_t memory_len,
                         uint16_t *tables, size_t tables_len, uint16_t *interrupt);

/* At most n steps, interrupts and changes of level included. *steps gets how many were taken, *reason why it ended
 * (ND110_STOPPED or ND110_SPENT), *references their memory references. ND110_BAD_CALL, ND110_SIZES, ND110_STATE. */
uint16_t nd110_run(uint16_t *state, size_t state_len, uint16_t *memory, size_t memory_len,
                   uint16_t *tables, size_t tables_len, uint64_t n, uint64_t *steps, uint16_t *reason,
                   uint64_t *references);

/* At most n steps, up to the first that gives an interrupt, or before a change of level; any of the four reasons.
 * ND110_BAD_CALL, ND110_SIZES, ND110_STATE. */
uint16_t nd110_run_to_interrupt(uint16_t *state, size_t state_len, uint16_t *memory, size_t memory_len,
                                uint16_t *tables, size_t tables_len, uint64_t n, uint64_t *steps,
                                uint16_t *reason, uint64_t *references);

/* A device raises a level: its PID bit is set. Memory and tables are only measured.
 * ND110_BAD_CALL, ND110_SIZES, ND110_STATE, ND110_RAISE_LEVEL. */
uint16_t nd110_raise(uint16_t *state, size_t state_len, uint16_t level, const uint16_t *memory,
                     size_t memory_len, const uint16_t *tables, size_t tables_len);

/* The same raise on a record. ND110_SIZES, ND110_STATE, ND110_RAISE_LEVEL. */
uint16_t nd110_raise_lent(nd110_state *state, uint16_t level, const uint16_t *memory, size_t memory_len,
                          const uint16_t *tables, size_t tables_len);

/* The real-time clock's pulse: the clock is ready, and asks for level 13 if it is enabled. A tick that comes before the
 * last was served is not counted, but asks again. Of a stopped machine too. Memory and tables are only measured.
 * ND110_BAD_CALL, ND110_SIZES, ND110_STATE. */
uint16_t nd110_tick(uint16_t *state, size_t state_len, const uint16_t *memory, size_t memory_len,
                    const uint16_t *tables, size_t tables_len);

/* A character typed at the terminal: it is unread, and the input asks for level 12 if it is enabled. Of a stopped
 * machine too. Memory and tables are only measured. ND110_BAD_CALL, ND110_SIZES, ND110_STATE, ND110_UNREAD. */
uint16_t nd110_type(uint16_t *state, size_t state_len, uint8_t character, const uint16_t *memory,
                    size_t memory_len, const uint16_t *tables, size_t tables_len);

/* The character that was sent last, once: *character gets it, none waits any more, and the output asks for level 10 if
 * it is enabled. If none waits *character gets ND110_NO_CHARACTER, and nothing else changes. Of a stopped machine too.
 * Memory and tables are only measured. ND110_BAD_CALL, ND110_SIZES, ND110_STATE. */
uint16_t nd110_read_out(uint16_t *state, size_t state_len, const uint16_t *memory, size_t memory_len,
                        const uint16_t *tables, size_t tables_len, uint16_t *character);

/* nd110_run_to_interrupt with device input: what[i], an input as a word, is handed in after at[i] steps, or as soon as
 * the one before it is if these have passed already. One list in three parts of one length; its order holds. An input
 * for a step beyond n is not handed in, nor is any behind it; a run that has ended (stopped, level or interrupt, which
 * are tested before each input and once more after the last) takes no further one.
 * told[i] gets 0 or the number of the input's refusal (ND110_RAISE_LEVEL, ND110_UNREAD), which leaves the machine as it
 * was and does not end the run; of a read out the character, or ND110_NO_CHARACTER. *handed gets how many inputs were
 * handed in; what told has for the others stays. A list of length 0 may be null.
 * ND110_BAD_CALL, ND110_SIZES, ND110_STATE. */
uint16_t nd110_run_with_input(uint16_t *state, size_t state_len, uint16_t *memory, size_t memory_len,
                              uint16_t *tables, size_t tables_len, uint64_t n, const uint64_t *at, size_t at_len,
                              const uint16_t *what, size_t what_len, uint16_t *told, size_t told_len,
                              uint64_t *handed, uint64_t *steps, uint16_t *reason, uint64_t *references);

/* The machine of an image: words, not bytes (an image file has the high byte first). Words that the image does not name
 * become 0. So images that earlier versions wrote load: without words of kind 5 the devices are cleared, 26 or 27
 * control words leave ND110_EXTENDED as 0, 26 leave ND110_PGS_HELD as 0 too, and 256 page table words leave the other
 * 256 as 0. The state's words before the call may be any.
 * ND110_BAD_CALL, ND110_SIZES, ND110_CONTENTS to ND110_BODIES, ND110_STATE. */
uint16_t nd110_load(uint16_t *state, size_t state_len, const uint16_t *image, size_t image_len,
                    uint16_t *memory, size_t memory_len, uint16_t *tables, size_t tables_len);

/* The machine as an image at the front of out; words of out past it stay.
 * ND110_BAD_CALL, ND110_SIZES, ND110_STATE, ND110_OUTPUT. */
uint16_t nd110_write(const uint16_t *state, size_t state_len, const uint16_t *memory, size_t memory_len,
                     const uint16_t *tables, size_t tables_len, uint16_t *out, size_t out_len);

/* len words from start on, of memory (ND110_MEMORY) or of the page tables (ND110_TABLES), copied to the front of out;
 * words of out past them stay. ND110_BAD_CALL, ND110_SIZES, ND110_VIEW. */
uint16_t nd110_view(uint16_t kind, size_t start, size_t len, const uint16_t *memory, size_t memory_len,
                    const uint16_t *tables, size_t tables_len, uint16_t *out, size_t out_len);

/* What nd110_view of these would answer if there is room in out. After ND110_DONE the part is at memory + start or
 * tables + start, to be read in place. ND110_BAD_CALL (an unknown kind), ND110_SIZES, ND110_VIEW. */
uint16_t nd110_view_answer(uint16_t kind, size_t start, size_t len, const uint16_t *memory,
                           size_t memory_len, const uint16_t *tables, size_t tables_len);

/* Conversions between the two floating forms of document 002, only where the value is kept exactly. They ask for no
 * machine. out has exactly the words of the form that is wanted, in the order given here; the number goes in by value,
 * so out may be where it was read from.
 *   short, A D    bit 15 of A the sign, bits 14-6 the exponent field, the other 22 the mantissa, its top bit implied
 *   long, T A D   bit 15 of T the sign, bits 14-0 the exponent field, A and D the mantissa
 * Zero is all bits 0 in each; a sign alone is ND110_MALFORMED. */

/* A short number as a long one. ND110_BAD_CALL, ND110_MALFORMED. */
uint16_t nd110_short_to_long(uint16_t a, uint16_t d, uint16_t *out, size_t out_len);

/* A long number as a short one. ND110_BAD_CALL, ND110_MALFORMED, ND110_EXPONENT_RANGE, ND110_PRECISION. */
uint16_t nd110_long_to_short(uint16_t t, uint16_t a, uint16_t d, uint16_t *out, size_t out_len);

#ifdef __cplusplus
}
#endif

#endif
