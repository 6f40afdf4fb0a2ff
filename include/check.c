/*
 * What docs/TABLES.md says of a call, tried: its worked example word by word, addresses that are not aligned, work
 * space of any content, counts of members that no row can have, the cut finder's rows, and the list of what would move
 * a cut.
 * Prints what is not as said, and how much was tried. The exit status is 1 if anything is not as said.
 *
 *     gcc -std=c99 include/check.c target/staticlib/libbuild.a target/staticlib/libfind_cut.a \
 *         target/staticlib/libcut_moves.a -o check
 */
#define _DEFAULT_SOURCE
#include "cundzeli.h"

#include <stdio.h>
#include <stdlib.h>
#include <sys/mman.h>

#define ONE UINT32_C(0x3f800000) /* the bits of 1.0f */
#define HALF UINT32_C(0x3f000000)
#define QUARTER UINT32_C(0x3e800000)

static int tried, bad;

static void expect(const char *what, uint32_t got, uint32_t want)
{
    tried++;
    if (got == want)
        return;
    bad++;
    printf("%s: %u, not %u\n", what, (unsigned)got, (unsigned)want);
}

static int all_are(const uint8_t *bytes, size_t length, uint8_t byte)
{
    for (size_t i = 0; i < length; i++)
        if (bytes[i] != byte)
            return 0;
    return 1;
}

/* ---------------------------------------------------------------------------------- the worked example */

enum { WORDS = 51, AT_UNALIGNED = 1 };

static const uint32_t CASE_A[WORDS] = {
    1, 3, 0, 2, 1, 0, 0, 0, 1, 2, 0, ONE, ONE, ONE, /* header */
    0, 7, ONE, 1, 0, 2, ONE, 1, 0, 4, ONE, 1, 0,    /* bank, classes */
    2, ONE, 2, HALF, 0, 0, 0,                       /* blocks, value */
    0, 2, 14, 0, 0, 5, 0, 0, 1, 0, 0, 4, 3, 0, 2, 0, 0, /* segment, uses */
};

/* The tables of case A with 2 registers, 2 segments, 2 uses and 1 group. */
static const uint32_t TABLES_A[WORDS] = {
    0, 1, HALF, 0, 0, 0, 0, 1, 0, 2, QUARTER, 0, 0, 0, 1, 1, /* registers */
    0, 2, 8, 2, 0, 0, 1, 0, 8, 14, 1, 0, 1, 1,               /* segments */
    5, 0, 0, 1, 0, 0, 4, 3, 0, 2, 0, 0,                      /* uses */
};

static uint8_t work[CUNDZELI_BUILD_WORK + 1];

static void write_words(uint8_t *to, const uint32_t *from, size_t count)
{
    for (size_t i = 0; i < count; i++)
        cundzeli_put(to, i, from[i]);
}

/* Case A at one of sixteen neighbouring addresses, in tables and work space that hold one byte throughout. */
static void worked_example(size_t off, uint8_t content)
{
    uint8_t in[4 * WORDS + 16], out[4 * WORDS + 16], want[4 * WORDS];
    uint8_t *job = in + off, *tables = out + off;
    write_words(job, CASE_A, WORDS);
    write_words(want, TABLES_A, WORDS);
    memset(out, content, sizeof out);
    memset(work, content, sizeof work);
    struct cundzeli_end end =
        build_initial_vregs(job, 4 * WORDS, tables, 4 * WORDS, 2, 2, 2, 1, work + (off ? AT_UNALIGNED : 0));
    expect("case A", end.number, CUNDZELI_OK);
    expect("case A, registers", end.registers, 2);
    expect("case A, groups", end.groups, 0);
    expect("case A, tables as said", memcmp(tables, want, sizeof want) == 0, 1);
    expect("case A, the byte behind the tables", tables[4 * WORDS], content);
    write_words(want, CASE_A, WORDS);
    expect("case A, the job as it was", memcmp(job, want, sizeof want) == 0, 1);
}

/* With room for one register: 9, and all zero, the bytes behind the last whole word too. */
static void too_few_rows(void)
{
    uint8_t job[4 * WORDS], out[4 * WORDS + 3];
    write_words(job, CASE_A, WORDS);
    memset(out, 0xa5, sizeof out);
    struct cundzeli_end end = build_initial_vregs(job, sizeof job, out, sizeof out, 1, 2, 2, 1, work);
    expect("one register", end.number, CUNDZELI_FULL);
    expect("one register, counts", end.registers + end.groups, 0);
    expect("one register, zeros", (uint32_t)all_are(out, sizeof out, 0), 1);
}

/* Two values of one vgroup, used as its members by one operand: two registers in a group. */
static const uint32_t TWO_OF_A_GROUP[] = {
    1, 2, 0, 1, 2, 1, 1, 0, 2, 2, 0, ONE, ONE, ONE, /* header */
    0, 3, ONE, 1, 0, 2, ONE, 2, 0, 2, ONE,          /* bank, classes, block */
    0, 0, 0, 0, 1, 0, 2, 0, 1, 0, 0, 0, 0, 0, 0,    /* values, vgroup */
    1, 0, 0, 1, 0, 0, 6, 0, 0, 1, 0, 6, 0, 1,       /* operand, segments */
    CUNDZELI_KIND_GROUP_CLASS_USE, 1, 0, 1, 0, 0, CUNDZELI_KIND_GROUP_CLASS_USE, 1, 0, 1, 1, 0, /* uses */
};

static void a_group(void)
{
    enum { COUNT = sizeof TWO_OF_A_GROUP / sizeof TWO_OF_A_GROUP[0] };
    uint8_t job[4 * COUNT], out[4096];
    write_words(job, TWO_OF_A_GROUP, COUNT);
    struct cundzeli_rows rows = cundzeli_rows_for_job(job);
    size_t group = cundzeli_places_of(rows).groups, second = CUNDZELI_OUT_REGISTER_ROW;
    expect("a group, rows", rows.registers * 1000 + rows.uses * 10 + rows.groups, 4061);
    struct cundzeli_end end = build_initial_vregs(
        job, sizeof job, out, cundzeli_out_bytes(rows), rows.registers, rows.segments, rows.uses, rows.groups, work);
    expect("a group", end.number, CUNDZELI_OK);
    expect("a group, registers and groups", end.registers * 10 + end.groups, 21);
    expect("a group, its size", cundzeli_word(out, group + CUNDZELI_OUT_GROUP_SIZE), 2);
    expect("a group, its first member + 1", cundzeli_word(out, group + CUNDZELI_OUT_GROUP_MEMBER), 1);
    expect("a group, its second member + 1", cundzeli_word(out, group + CUNDZELI_OUT_GROUP_MEMBER + 1), 2);
    expect("its second member's class", cundzeli_word(out, second + CUNDZELI_OUT_REGISTER_CLASS), 1);
    expect("its second member's group + 1", cundzeli_word(out, second + CUNDZELI_OUT_REGISTER_GROUP), 1);
    expect("its second member's place", cundzeli_word(out, second + CUNDZELI_OUT_REGISTER_GROUP_INDEX), 1);
}

/* --------------------------------------------------------------------------------- members of a vgroup */

enum { GROUPED = 34 + CUNDZELI_VGROUP_ROW };

/* Case A up to its values, with a vgroup and no segment, so that the vgroup's row is the last of the slice. */
static void grouped(uint8_t *job, uint32_t members)
{
    write_words(job, CASE_A, 34);
    cundzeli_put(job, CUNDZELI_HEADER_VGROUPS, 1);
    cundzeli_put(job, CUNDZELI_HEADER_SEGMENTS, 0);
    cundzeli_put(job, CUNDZELI_HEADER_USES, 0);
    cundzeli_put(job, 34, members);
    for (size_t i = 35; i < GROUPED; i++)
        cundzeli_put(job, i, 0);
}

static uint32_t number_of(const uint8_t *job)
{
    uint8_t out[4];
    return build_initial_vregs(job, 4 * GROUPED, out, sizeof out, 0, 0, 0, 0, work).number;
}

/* Bytes that end where a page begins that can't be read. */
static uint8_t *at_the_edge(size_t length)
{
    uint8_t *pages = (uint8_t *)mmap(NULL, 8192, PROT_READ | PROT_WRITE, MAP_PRIVATE | MAP_ANONYMOUS, -1, 0);
    if (pages == MAP_FAILED || mprotect(pages + 4096, 4096, PROT_NONE) != 0) {
        perror("mmap");
        exit(2);
    }
    return pages + 4096 - length;
}

static void members(void)
{
    static const uint32_t refused[] = {0, 1, 9, 10, 255, 4294967295U};
    uint8_t *job = at_the_edge(4 * GROUPED);
    for (uint32_t n = 2; n <= 8; n++) {
        grouped(job, n);
        expect("2 to 8 members", number_of(job), CUNDZELI_OK);
    }
    for (size_t i = 0; i < sizeof refused / sizeof refused[0]; i++) {
        grouped(job, refused[i]);
        expect("another number of members", number_of(job), CUNDZELI_BAD_FUNCTION);
    }
    cundzeli_put(job, 14, 3); /* the bank's top class */
    expect("and an unknown top class", number_of(job), CUNDZELI_BAD_BOOK);
    cundzeli_put(job, CUNDZELI_HEADER_K, CUNDZELI_MOST_K + 1);
    expect("and k above its limit", number_of(job), CUNDZELI_OVER_A_LIMIT);
    cundzeli_put(job, 18, 2); /* spillslots of class 0 */
    expect("and a choice off its list", number_of(job), CUNDZELI_NOT_A_RECORD);
}

/* ------------------------------------------------------------------------------- the cut finder's rows */

static uint8_t blocks[8 * 513];

/* `count` blocks of the same instructions and frequency. */
static void fill_blocks(size_t count, uint32_t insts, uint32_t frequency)
{
    for (size_t i = 0; i < count; i++) {
        cundzeli_put(blocks, CUNDZELI_BLOCK_ROW * i + CUNDZELI_BLOCK_INSTS, insts);
        cundzeli_put(blocks, CUNDZELI_BLOCK_ROW * i + CUNDZELI_BLOCK_FREQUENCY, frequency);
    }
}

/* The number that so many bytes of blocks give; a refusal leaves the work space as it was. */
static uint32_t cut_number(size_t length, uint32_t after, uint32_t before, uint32_t side)
{
    memset(work, 0xa5, CUNDZELI_CUT_WORK);
    struct cundzeli_cut cut = find_optimal_split_point(blocks, length, after, before, side, work);
    if (cut.number != CUNDZELI_OK) {
        expect("a refused cut, inst", cut.inst, 0);
        expect("a refused cut, work", (uint32_t)all_are(work, CUNDZELI_CUT_WORK, 0xa5), 1);
    }
    return cut.number;
}

static void rows_of_blocks(void)
{
    fill_blocks(513, 8, ONE);
    expect("512 blocks", cut_number(8 * 512, 0, 4095, 1), CUNDZELI_OK);
    expect("513 blocks", cut_number(8 * 513, 0, 1, 0), CUNDZELI_OVER_A_LIMIT);
    expect("no block", cut_number(0, 0, 1, 0), CUNDZELI_NOT_A_RECORD);
    expect("half a row", cut_number(8 * 512 + 4, 0, 1, 0), CUNDZELI_NOT_A_RECORD);
    expect("a side off its list", cut_number(8 * 512, 0, 1, 2), CUNDZELI_NOT_A_RECORD);
    expect("a side off its list, 513 blocks", cut_number(8 * 513, 0, 1, 2), CUNDZELI_NOT_A_RECORD);
    expect("ends that are equal", cut_number(8 * 512, 7, 7, 0), CUNDZELI_BAD_FUNCTION);
    expect("an end past the last instruction", cut_number(8 * 512, 0, 4096, 0), CUNDZELI_BAD_FUNCTION);
}

/* Counts and frequencies that no block has. Counts are added without wrapping. */
static void bad_blocks(void)
{
    static const uint32_t frequencies[] = {0x80000000U, 0x7f800000U, 0x7fc00000U, 0xbf800000U, 0xffffffffU};
    fill_blocks(512, 8, ONE);
    cundzeli_put(blocks, CUNDZELI_BLOCK_INSTS, 9);
    expect("4,097 instructions", cut_number(8 * 512, 0, 1, 0), CUNDZELI_OVER_A_LIMIT);
    cundzeli_put(blocks, CUNDZELI_BLOCK_INSTS, 0);
    expect("a block without instructions", cut_number(8 * 512, 0, 1, 0), CUNDZELI_BAD_FUNCTION);
    fill_blocks(512, 0x80000000U, ONE);
    expect("counts that add up to 2 to the 40th", cut_number(8 * 512, 0, 1, 0), CUNDZELI_OVER_A_LIMIT);
    for (size_t i = 0; i < sizeof frequencies / sizeof frequencies[0]; i++) {
        fill_blocks(2, 8, frequencies[i]);
        expect("a bad frequency", cut_number(8 * 2, 0, 1, 0), CUNDZELI_BAD_FUNCTION);
        cundzeli_put(blocks, CUNDZELI_BLOCK_INSTS, 4097);
        expect("a bad frequency and too many instructions", cut_number(8 * 2, 0, 1, 0), CUNDZELI_OVER_A_LIMIT);
    }
}

/* ------------------------------------------------------------------------- what would move a cut */

/* Block, way and steps of each row: cases F and G, early and late. */
static const uint32_t F_EARLY[] = {1, CUNDZELI_WAY_UP, 1, 2, CUNDZELI_WAY_DOWN, 1, 0, CUNDZELI_WAY_DOWN, 4194304};
static const uint32_t F_LATE[] = {1, CUNDZELI_WAY_DOWN, 1, 2, CUNDZELI_WAY_UP, 1, 0, CUNDZELI_WAY_DOWN, 4194305};
static const uint32_t G_EARLY[] = {
    1, CUNDZELI_WAY_DOWN, 8388608, 2, CUNDZELI_WAY_UP, 8388608, 0, CUNDZELI_WAY_DOWN, 12582912};
static const uint32_t G_LATE[] = {0, CUNDZELI_WAY_DOWN, 4194305, 1, CUNDZELI_WAY_UP, 4194305};

/* Three blocks of 4, 4 and 8 instructions, run 3, 2 and `last` times. */
static void three_blocks(float last)
{
    const float frequencies[] = {3, 2, last};
    for (size_t i = 0; i < 3; i++) {
        cundzeli_put(blocks, CUNDZELI_BLOCK_ROW * i + CUNDZELI_BLOCK_INSTS, i == 2 ? 8 : 4);
        cundzeli_put(blocks, CUNDZELI_BLOCK_ROW * i + CUNDZELI_BLOCK_FREQUENCY, cundzeli_bits(frequencies[i]));
    }
}

/* The first row, done: the cut is another one, and with a step less it is not. */
static void first_row(const uint8_t *list, uint32_t after, uint32_t before, uint32_t side)
{
    size_t at = CUNDZELI_BLOCK_ROW * cundzeli_word(list, CUNDZELI_MOVES_BLOCK) + CUNDZELI_BLOCK_FREQUENCY;
    uint32_t way = cundzeli_word(list, CUNDZELI_MOVES_WAY), steps = cundzeli_word(list, CUNDZELI_MOVES_STEPS);
    float own = cundzeli_float(cundzeli_word(blocks, at));
    uint32_t held = find_optimal_split_point(blocks, 8 * 3, after, before, side, work).inst;
    cundzeli_put(blocks, at, cundzeli_bits(cundzeli_target(own, way, steps)));
    expect("moved", find_optimal_split_point(blocks, 8 * 3, after, before, side, work).inst != held, 1);
    cundzeli_put(blocks, at, cundzeli_bits(cundzeli_target(own, way, steps - 1)));
    expect("a step less", find_optimal_split_point(blocks, 8 * 3, after, before, side, work).inst, held);
    cundzeli_put(blocks, at, cundzeli_bits(own));
}

/* The three blocks in lists of every length, at any address, in list and work space of any content. */
static void moves_of(uint32_t before, uint32_t side, const uint32_t *rows, uint32_t count)
{
    uint8_t bytes[96], want[80], before_call[8 * 3];
    memcpy(before_call, blocks, sizeof before_call);
    for (size_t length = 0; length < sizeof want; length++) {
        uint8_t *list = bytes + length % 8;
        int fits = length >= cundzeli_list_bytes(3);
        memset(bytes, 0xa5, sizeof bytes);
        memset(want, 0, sizeof want);
        memset(work, (int)length, CUNDZELI_MOVES_WORK);
        if (fits)
            write_words(want, rows, CUNDZELI_MOVES_ROW * count);
        struct cundzeli_moves end = find_cut_moves(blocks, 8 * 3, 1, before, side, list, length, work + length % 2);
        expect("moves", end.number, fits ? CUNDZELI_OK : CUNDZELI_FULL);
        expect("moves, rows", end.count, fits ? count : 0);
        expect("moves, list as said", memcmp(list, want, length) == 0, 1);
        expect("moves, beside the list", (uint32_t)all_are(bytes, length % 8, 0xa5) + list[length], 1 + 0xa5);
        expect("moves, the blocks as they were", memcmp(blocks, before_call, sizeof before_call) == 0, 1);
        if (fits)
            first_row(list, 1, before, side);
    }
}

static void moves(void)
{
    three_blocks(2);
    moves_of(13, CUNDZELI_SIDE_EARLY, F_EARLY, 3);
    moves_of(13, CUNDZELI_SIDE_LATE, F_LATE, 3);
    three_blocks(1);
    moves_of(8, CUNDZELI_SIDE_EARLY, G_EARLY, 3);
    moves_of(8, CUNDZELI_SIDE_LATE, G_LATE, 2);
}

/* The number that so many bytes of blocks give in a list of so many bytes; a refusal leaves zeros. */
static uint32_t moves_number(size_t length, uint32_t after, uint32_t before, uint32_t side, size_t list_length)
{
    static uint8_t list[12 * 513 + 1];
    memset(list, 0xa5, sizeof list);
    struct cundzeli_moves end = find_cut_moves(blocks, length, after, before, side, list, list_length, work);
    if (end.number != CUNDZELI_OK) {
        expect("refused moves, count", end.count, 0);
        expect("refused moves, list", (uint32_t)all_are(list, list_length, 0), 1);
    }
    expect("the byte behind the list", list[list_length], 0xa5);
    return end.number;
}

/* The lowest number comes, and 9 last of all. */
static void refused_moves(void)
{
    fill_blocks(513, 8, ONE);
    expect("512 blocks", moves_number(8 * 512, 0, 4095, 0, 12 * 512), CUNDZELI_OK);
    expect("512 blocks, a byte short", moves_number(8 * 512, 0, 4095, 0, 12 * 512 - 1), CUNDZELI_FULL);
    expect("512 blocks, one open, a row short", moves_number(8 * 512, 0, 1, 0, 12 * 511), CUNDZELI_FULL);
    for (size_t room = 0; room <= 12 * 513; room += 12 * 513) {
        expect("513 blocks", moves_number(8 * 513, 0, 1, 0, room), CUNDZELI_OVER_A_LIMIT);
        expect("no block", moves_number(0, 0, 1, 0, room), CUNDZELI_NOT_A_RECORD);
        expect("half a row", moves_number(8 * 512 + 4, 0, 1, 0, room), CUNDZELI_NOT_A_RECORD);
        expect("a side off its list", moves_number(8 * 513, 0, 1, 2, room), CUNDZELI_NOT_A_RECORD);
        expect("ends that are equal", moves_number(8 * 512, 7, 7, 0, room), CUNDZELI_BAD_FUNCTION);
        expect("an end past the last", moves_number(8 * 512, 0, 4096, 0, room), CUNDZELI_BAD_FUNCTION);
    }
    fill_blocks(3, UINT32_C(0xfffffff0), ONE);
    cundzeli_put(blocks, CUNDZELI_BLOCK_INSTS, 40);
    expect("counts that wrap to 8", moves_number(8 * 3, 0, 1, 0, 12 * 3), CUNDZELI_OVER_A_LIMIT);
}

int main(void)
{
    for (size_t off = 0; off < 16; off++) {
        worked_example(off, 0x00);
        worked_example(off, 0xff);
    }
    too_few_rows();
    a_group();
    members();
    rows_of_blocks();
    bad_blocks();
    moves();
    refused_moves();
    printf("%d tried, %d not as said\n", tried, bad);
    return bad == 0 ? 0 : 1;
}
