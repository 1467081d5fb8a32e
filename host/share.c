/*
 * A host that shares its time: five jobs in turn, three steps each, until each has ended. After each turn it writes the record, all five fields of it.
 * share.rs is the same host in Rust.
 */
#include "rawgunshet.h"

#include <inttypes.h>
#include <stdio.h>

#define WORDS 16
#define BUDGET 3
#define JOBS 5

struct job {
    const char *name;
    uint8_t memory[8 * WORDS];
    uint64_t registers[256];
    struct rawgunshet_record record;
    int ended;
};

static const char *const words[] = {
    "all the budget is used",
    "exit",
    "memory length wrong, or not 256 registers",
    "record impossible",
    "word at P not in memory",
    "function not in the table",
    "a bit that is to be zero isn't",
    "designator 00 where no meaning is given",
    "misaligned",
    "vector source shorter than C",
    "an address or field not wholly in memory",
    "result field shares a bit with a source or control field",
};

/* Word k of memory, at bit address 0x4000 + 64 * k: its left byte comes first. */
static void put(struct job *job, size_t k, uint64_t word)
{
    for (size_t i = 0; i < 8; i++)
        job->memory[8 * k + i] = (uint8_t)(word >> (56 - 8 * i));
}

static uint64_t get(const struct job *job, size_t k)
{
    uint64_t word = 0;
    for (size_t i = 0; i < 8; i++)
        word = word << 8 | job->memory[8 * k + i];
    return word;
}

/* A vector add of seven words, then exit: the inflow at 4080 is added to the storage at 4240, in place. */
static void load_reservoir(struct job *job)
{
    put(job, 0, 0x8300001000110011);
    put(job, 1, 0x0900000000000000);
    for (size_t k = 0; k < 7; k++) {
        put(job, 2 + k, k + 1);
        put(job, 9 + k, 100 * (k + 1));
    }
    job->registers[0x10] = 0x0007000000004080;
    job->registers[0x11] = 0x0007000000004240;
}

/* Register 20 grows by the count in 21; the count falls by one and branches back to 4000 unless it is zero; then exit. */
static void load_loop(struct job *job)
{
    put(job, 0, 0x63202120B1002221);
    put(job, 1, 0x0023002109000000);
    job->registers[0x21] = 4;
    job->registers[0x22] = 0x0000FFFFFFFFFFFF;
    job->registers[0x23] = 0x4000;
}

/* A vector transmits four words over itself: a zero on its own word, then a load of a word at 4108, which is refused. */
static void load_own_word(struct job *job)
{
    put(job, 0, 0x9800001000000011);
    put(job, 5, 0x7E12131409000000);
    job->registers[0x10] = 0x0004000000004100;
    job->registers[0x11] = 0x0004000000004000;
    job->registers[0x12] = 0x4108;
}

/* A vector contracts five words to half words, rounded, then exit: the second is too large (flags 42 and 46), the fourth too small (43). */
static void load_trace(struct job *job)
{
    put(job, 0, 0x9700001000000011);
    put(job, 1, 0x0900000000000000);
    put(job, 2, 0x0000000000800000);
    put(job, 3, 0x00577FFFFFFFFFFF);
    put(job, 4, 0x00007FFFFFFFFFFF);
    put(job, 5, 0xFF777FFFFFFFFFFF);
    put(job, 6, 0x0000FFFFFF800000);
    job->registers[0x10] = 0x0005000000004080;
    job->registers[0x11] = 0x00050000000041C0;
}

/* The reservoir as a host kept it, two of its seven items added: the record says so, and that flag 46 was set before. */
static void load_kept(struct job *job)
{
    load_reservoir(job);
    put(job, 9, 101);
    put(job, 10, 202);
    job->record = (struct rawgunshet_record){.p = 0x4000, .mark = 1, .word = 0x8300001000110011, .items = 2, .flags = 1 << 17};
}

/* One turn of a job. */
static void run(unsigned turn, struct job *job)
{
    uint64_t result = rawgunshet_run(job->memory, sizeof job->memory, job->registers, 256, &job->record, BUDGET);
    enum rawgunshet_number answer = rawgunshet_answer(result);
    const struct rawgunshet_record *at = &job->record;
    printf("turn %u, %s: answer %u (%s), steps %" PRIu32 "; ", turn, job->name, (unsigned)answer, words[answer], rawgunshet_steps(result));
    printf("p %" PRIX64 ", mark %" PRIu64 ", word %" PRIX64 ", items %" PRIu64 ", flags %" PRIX64 "\n", at->p, at->mark, at->word, at->items, at->flags);
    job->ended = answer != RAWGUNSHET_PAUSED;
}

static void show_storage(const struct job *job)
{
    printf("%s: storage", job->name);
    for (size_t k = 0; k < 7; k++)
        printf(" %" PRIu64, get(job, 9 + k));
    printf("\n");
}

int main(void)
{
    static struct job jobs[JOBS] = {
        {.name = "reservoir", .record.p = 0x4000},
        {.name = "loop", .record.p = 0x4000},
        {.name = "own word", .record.p = 0x4000},
        {.name = "trace", .record.p = 0x4000},
        {.name = "kept", .record.p = 0x4000},
    };
    load_reservoir(&jobs[0]);
    load_loop(&jobs[1]);
    load_own_word(&jobs[2]);
    load_trace(&jobs[3]);
    load_kept(&jobs[4]);

    size_t left = JOBS;
    for (unsigned turn = 1; left > 0; turn++) {
        for (size_t k = 0; k < JOBS; k++) {
            if (jobs[k].ended)
                continue;
            run(turn, &jobs[k]);
            left -= (size_t)jobs[k].ended;
        }
    }

    show_storage(&jobs[0]);
    printf("loop: sum %" PRIu64 ", count %" PRIu64 "\n", jobs[1].registers[0x20], jobs[1].registers[0x21]);
    printf("own word: %016" PRIX64 " at 4000\n", get(&jobs[2], 0));
    printf("trace: %016" PRIX64 " %016" PRIX64 " %016" PRIX64 " at 41C0\n", get(&jobs[3], 7), get(&jobs[3], 8), get(&jobs[3], 9));
    show_storage(&jobs[4]);
    return 0;
}
