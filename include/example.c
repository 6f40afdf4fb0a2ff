/*
 * The proved functions from C: case A (docs/samples/A.job) is written as a binary job, its register sheet is printed as
 * in docs/samples/A.out, two cuts are asked for, what would move one of them, and two refusals are shown.
 * include/example.out has what is printed behind the register sheet.
 *
 *     gcc -std=c99 include/example.c target/staticlib/libbuild.a target/staticlib/libfind_cut.a \
 *         target/staticlib/libcut_moves.a -o example
 */
#include "cundzeli.h"

#include <inttypes.h>
#include <stdio.h>
#include <stdlib.h>

#define ONE UINT32_C(0x3f800000) /* the bits of 1.0f */
#define HALF UINT32_C(0x3f000000)

/* Case A, word by word: docs/TABLES.md has it as its worked example. */
static const uint32_t CASE_A[] = {
    1, 3, 0, 2, 1, 0, 0, 0, 1, 2, /* banks, classes, regs, blocks, values, vgroups, operands, hints, segments, uses */
    0, ONE, ONE, ONE,             /* k and the scales */
    0,                            /* bank 0: top class 0 */
    7, ONE, 1, 0,                 /* class 0: subclasses 0, 1, 2 */
    2, ONE, 1, 0,                 /* class 1 */
    4, ONE, 1, 0,                 /* class 2 */
    2, ONE,                       /* block 0: two instructions */
    2, HALF,                      /* block 1: half as often */
    0, 0, 0,                      /* value 0 */
    0, 2, 14, 0, 0,               /* a segment of value 0, from point 2 up to 14 */
    CUNDZELI_KIND_CLASS_DEF, 0, 0, 1, 0, 0, /* instruction 0, slot 0, class 1 */
    CUNDZELI_KIND_CLASS_USE, 3, 0, 2, 0, 0, /* instruction 3, slot 0, class 2 */
};

enum { WORDS = sizeof CASE_A / sizeof CASE_A[0], FIRST_BLOCK = 27 };

/* The tables of a result, and where they stand. */
struct result {
    const uint8_t *out;
    struct cundzeli_places places;
    struct cundzeli_end end;
};

/* Words in a row, behind tabs. */
static void print_words(const struct result *r, size_t at, uint32_t count)
{
    for (uint32_t i = 0; i < count; i++)
        printf("\t%" PRIu32, cundzeli_word(r->out, at + i));
}

static void print_use(const struct result *r, uint32_t number)
{
    size_t at = r->places.uses + (size_t)number * CUNDZELI_USE_ROW;
    printf("use");
    print_words(r, at, CUNDZELI_USE_FIELD + cundzeli_kind_fields(cundzeli_word(r->out, at + CUNDZELI_USE_KIND)));
    printf("\n");
}

static void print_segment(const struct result *r, uint32_t number)
{
    size_t at = r->places.segments + (size_t)number * CUNDZELI_OUT_SEGMENT_ROW;
    uint32_t first = cundzeli_word(r->out, at + CUNDZELI_OUT_SEGMENT_FIRST);
    uint32_t count = cundzeli_word(r->out, at + CUNDZELI_OUT_SEGMENT_COUNT);
    printf("seg");
    print_words(r, at, CUNDZELI_OUT_SEGMENT_ORIGIN);
    printf(cundzeli_word(r->out, at + CUNDZELI_OUT_SEGMENT_ORIGIN) == CUNDZELI_ORIGIN_OWN ? "\town\n" : "\tconflict\n");
    for (uint32_t i = 0; i < count; i++)
        print_use(r, first + i);
}

/* A number that is stored one above, or - for none. */
static void print_or_none(uint32_t stored)
{
    if (stored == 0)
        printf("\t-");
    else
        printf("\t%" PRIu32, stored - 1);
}

static void print_register(const struct result *r, uint32_t number)
{
    size_t at = r->places.registers + (size_t)number * CUNDZELI_OUT_REGISTER_ROW;
    uint32_t first = cundzeli_word(r->out, at + CUNDZELI_OUT_REGISTER_FIRST);
    uint32_t count = cundzeli_word(r->out, at + CUNDZELI_OUT_REGISTER_COUNT);
    printf("vreg\t%" PRIu32, number);
    print_words(r, at + CUNDZELI_OUT_REGISTER_SET, 2);
    printf("\t%08" PRIx32, cundzeli_word(r->out, at + CUNDZELI_OUT_REGISTER_WEIGHT));
    print_or_none(cundzeli_word(r->out, at + CUNDZELI_OUT_REGISTER_GROUP));
    print_words(r, at + CUNDZELI_OUT_REGISTER_GROUP_INDEX, 2);
    printf("\n");
    for (uint32_t i = 0; i < count; i++)
        print_segment(r, first + i);
}

static void print_group(const struct result *r, uint32_t number)
{
    size_t at = r->places.groups + (size_t)number * CUNDZELI_OUT_GROUP_ROW;
    uint32_t size = cundzeli_word(r->out, at + CUNDZELI_OUT_GROUP_SIZE);
    printf("group\t%" PRIu32, number);
    for (uint32_t i = 0; i < size; i++)
        print_or_none(cundzeli_word(r->out, at + CUNDZELI_OUT_GROUP_MEMBER + i));
    printf("\n");
}

static void print_sheet(const struct result *r)
{
    for (uint32_t i = 0; i < r->end.registers; i++)
        print_register(r, i);
    for (uint32_t i = 0; i < r->end.groups; i++)
        print_group(r, i);
    printf("end\t%" PRIu32 "\t%" PRIu32 "\n", r->end.registers, r->end.groups);
}

/* Builds a job in as many rows as it can need, and prints the register sheet or the refusal. */
static int build_and_print(const uint8_t *job, size_t length, uint8_t *work)
{
    struct cundzeli_rows rows = cundzeli_rows_for_job(job);
    size_t bytes = cundzeli_out_bytes(rows);
    uint8_t *out = (uint8_t *)malloc(bytes + 1); /* never of no byte, so never NULL where there is memory */
    if (out == NULL)
        return 0;
    struct cundzeli_end end =
        build_initial_vregs(job, length, out, bytes, rows.registers, rows.segments, rows.uses, rows.groups, work);
    if (end.number == CUNDZELI_OK) {
        struct result r = {out, cundzeli_places_of(rows), end};
        print_sheet(&r);
    } else {
        printf("refused\t%" PRIu32 "\t%s\n", end.number, cundzeli_cause(end.number));
    }
    free(out);
    return 1;
}

/* Where a value that is live from the first to the last instruction is best cut, by the blocks of the job. */
static void ask_for_a_cut(const uint8_t *job)
{
    static uint8_t work[CUNDZELI_CUT_WORK];
    const uint8_t *blocks = job + 4 * FIRST_BLOCK;
    size_t length = 4 * CUNDZELI_BLOCK_ROW * cundzeli_word(job, CUNDZELI_HEADER_BLOCKS);
    struct cundzeli_cut early = find_optimal_split_point(blocks, length, 0, 3, CUNDZELI_SIDE_EARLY, work);
    struct cundzeli_cut late = find_optimal_split_point(blocks, length, 0, 3, CUNDZELI_SIDE_LATE, work);
    struct cundzeli_cut none = find_optimal_split_point(blocks, length, 3, 0, CUNDZELI_SIDE_EARLY, work);
    printf("early\t%" PRIu32 "\t%" PRIu32 "\n", early.number, early.inst);
    printf("late\t%" PRIu32 "\t%" PRIu32 "\n", late.number, late.inst);
    printf("ends that fall\t%" PRIu32 "\t%" PRIu32 "\n", none.number, none.inst);
}

/* Which blocks of the job would move the early one of these cuts, and the frequency that each would have to have. */
static int ask_what_moves_it(const uint8_t *job)
{
    static uint8_t work[CUNDZELI_MOVES_WORK];
    const uint8_t *blocks = job + 4 * FIRST_BLOCK;
    uint32_t count = cundzeli_word(job, CUNDZELI_HEADER_BLOCKS);
    size_t length = 4 * CUNDZELI_BLOCK_ROW * count, list_length = cundzeli_list_bytes(count);
    uint8_t *list = (uint8_t *)malloc(list_length); /* a job has a block */
    if (list == NULL)
        return 0;
    struct cundzeli_moves end = find_cut_moves(blocks, length, 0, 3, CUNDZELI_SIDE_EARLY, list, list_length, work);
    for (uint32_t i = 0; i < end.count; i++) {
        const uint8_t *row = list + (size_t)4 * CUNDZELI_MOVES_ROW * i;
        uint32_t block = cundzeli_word(row, CUNDZELI_MOVES_BLOCK), way = cundzeli_word(row, CUNDZELI_MOVES_WAY);
        uint32_t steps = cundzeli_word(row, CUNDZELI_MOVES_STEPS);
        float own = cundzeli_float(cundzeli_word(blocks, CUNDZELI_BLOCK_ROW * block + CUNDZELI_BLOCK_FREQUENCY));
        printf("block\t%" PRIu32 "\t%s\t%" PRIu32, block, way == CUNDZELI_WAY_UP ? "up" : "down", steps);
        printf("\tfrom %g to %g\n", (double)own, (double)cundzeli_target(own, way, steps));
    }
    free(list);
    return end.number == CUNDZELI_OK;
}

int main(void)
{
    static uint8_t work[CUNDZELI_BUILD_WORK];
    uint8_t job[4 * WORDS];
    for (size_t i = 0; i < WORDS; i++)
        cundzeli_put(job, i, CASE_A[i]);
    if (!build_and_print(job, sizeof job, work))
        return 1;
    ask_for_a_cut(job);
    if (!ask_what_moves_it(job))
        return 1;
    cundzeli_put(job, CUNDZELI_HEADER_K, CUNDZELI_MOST_K + 1);
    return build_and_print(job, sizeof job, work) ? 0 : 1;
}
