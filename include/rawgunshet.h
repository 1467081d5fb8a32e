/*
 * Rawgunshet for hosts in C and C++: one call that runs a job for a number of steps.
 *
 * The code is for x86-64 on Linux. `tools/build runs_c` proves it and writes target/staticlib/libruns.a:
 *
 *     cc -I include host.c target/staticlib/libruns.a
 *
 * Bits are numbered from 0 at the left, which is the highest bit of a byte and of a number.
 * Byte k of the lent memory has the bit address 0x4000 + 8 * k, and a word in memory has its left byte first.
 */
#ifndef RAWGUNSHET_H
#define RAWGUNSHET_H

#include <stddef.h>
#include <stdint.h>

#ifdef __cplusplus
extern "C" {
#endif

/*
 * Where a job stands between two calls. A new job has its first address in p and 0 in the others.
 * A host may keep the record of a paused job, with its memory and registers, and go on with them later.
 */
struct rawgunshet_record {
    uint64_t p;     /* the program address: 48 bits, a multiple of 32 */
    uint64_t mark;  /* 1 half done, 0 not */
    uint64_t word;  /* half done: the instruction held, a 32-bit one in the left half; else 0 */
    uint64_t items; /* half done: the items done; else 0 */
    uint64_t flags; /* data flags: 42 is 1 << 21, 43 is 1 << 20, 46 is 1 << 17; set and never cleared */
};

/* The archive has the five numbers in this order, 8 bytes each. A compiler for C11 or C++11 checks that its record is the same. */
#if defined(__cplusplus) && __cplusplus >= 201103L
#define RAWGUNSHET_ASSERT(fact) static_assert(fact, #fact)
#elif defined(__STDC_VERSION__) && __STDC_VERSION__ >= 201112L
#define RAWGUNSHET_ASSERT(fact) _Static_assert(fact, #fact)
#endif
#ifdef RAWGUNSHET_ASSERT
RAWGUNSHET_ASSERT(offsetof(struct rawgunshet_record, p) == 0);
RAWGUNSHET_ASSERT(offsetof(struct rawgunshet_record, mark) == 8);
RAWGUNSHET_ASSERT(offsetof(struct rawgunshet_record, word) == 16);
RAWGUNSHET_ASSERT(offsetof(struct rawgunshet_record, items) == 24);
RAWGUNSHET_ASSERT(offsetof(struct rawgunshet_record, flags) == 32);
RAWGUNSHET_ASSERT(sizeof(struct rawgunshet_record) == 40);
#undef RAWGUNSHET_ASSERT
#endif

/*
 * What a call says. Checked in this order: 2, 3, a budget of 0, then at each instruction 4, 5, 6, 7, 1, 8, 9, 10, 11; a 09 with operands is 6.
 * 1 to 11 leave memory, registers and record as the last finished step left them, P at the exit or the refused word.
 */
enum rawgunshet_number {
    RAWGUNSHET_PAUSED = 0,     /* all the budget is used; steps are the budget */
    RAWGUNSHET_EXIT = 1,       /* 09 is at P */
    RAWGUNSHET_LENGTHS = 2,    /* memory is not 8 to 65,536 bytes, a multiple of 8, or there are not 256 registers */
    RAWGUNSHET_IMPOSSIBLE = 3, /* the record is impossible */
    RAWGUNSHET_NOT_THERE = 4,  /* the first 32 bits at P are not in memory, or the code there is a listed 64-bit one and the next 32 are not */
    RAWGUNSHET_NOT_LISTED = 5, /* the function is not in the table */
    RAWGUNSHET_NOT_ZERO = 6,   /* a bit that is to be zero isn't */
    RAWGUNSHET_DESIGNATOR = 7, /* a designator 00 (half word 00 or 01) where it has no meaning */
    RAWGUNSHET_MISALIGNED = 8, /* word fields and addresses 64, half-word fields 32, bytes 8, a taken target 32 */
    RAWGUNSHET_SHORT = 9,      /* a vector source, not broadcast, is shorter than C */
    RAWGUNSHET_OUTSIDE = 10,   /* an address or field is not wholly in memory */
    RAWGUNSHET_SHARED = 11     /* the result field shares a bit with a source or control field */
};

/*
 * Runs the job for at most `budget` steps. A vector, bit or move instruction takes one step for each result item, or one if it has none;
 * exit takes none; every other takes one. The record then holds the new state. A job that is run in parts ends as in one call.
 *
 * The result has the answer's number in the left 32 bits and the steps in the right 32; the two functions below take it apart.
 * Steps are the items and instructions finished in this call; 2 and 3 have 0.
 *
 * Every content, count and budget has an answer. What the caller owes, and the call cannot check:
 *   - `bytes` bytes are at `memory`, `count` numbers at `registers` and one record at `record`; none of the three is null, also where a count is 0;
 *   - all of them can be read and written, and have been written before;
 *   - `registers` and `record` are aligned to 8;
 *   - no two of the three overlap;
 *   - nothing else reads or writes them until the call returns.
 * The call keeps nothing, allocates nothing and may be made from several threads at once, each with its own three.
 */
uint64_t rawgunshet_run(uint8_t *memory, size_t bytes, uint64_t *registers, size_t count, struct rawgunshet_record *record, uint32_t budget);

static inline enum rawgunshet_number rawgunshet_answer(uint64_t result)
{
    return (enum rawgunshet_number)(result >> 32);
}

static inline uint32_t rawgunshet_steps(uint64_t result)
{
    return (uint32_t)result;
}

#ifdef __cplusplus
}
#endif

#endif
