/*
 * How much stack the three functions take, measured: a call runs on a stack of its own that was painted before, and
 * what is no longer paint was used; then the same call runs on threads with less and less stack, until one fails.
 * Prints a line for each call. The exit status is 1 if one takes more than cundzeli.h says, or answers otherwise.
 *
 *     gcc -std=c99 -pthread include/stack.c target/staticlib/libbuild.a target/staticlib/libfind_cut.a \
 *         target/staticlib/libcut_moves.a -o stack
 */
#define _DEFAULT_SOURCE
#include "cundzeli.h"

#include <pthread.h>
#include <stdio.h>
#include <stdlib.h>
#include <sys/mman.h>
#include <sys/wait.h>
#include <unistd.h>

#define ONE UINT32_C(0x3f800000) /* the bits of 1.0f */
#define MOST ((size_t)8 << 20)   /* the painted stack */
#define PAINT 0xa5

/* ------------------------------------------------------------------------------------------------ jobs */

static uint8_t job[4 * 40000];
static size_t words;

static void add(uint32_t word)
{
    cundzeli_put(job, words++, word);
}

/* One value over 4,096 instructions in 512 blocks, a top class with this mask, and two classes that share nothing. */
static void begin(uint32_t mask, uint32_t uses)
{
    const uint32_t header[CUNDZELI_HEADER] = {1, 3, 0, 512, 1, 0, 0, 0, 1, uses, 0, ONE, ONE, ONE};
    const uint32_t classes[] = {mask, ONE, 1, 0, 2, ONE, 1, 0, 4, ONE, 1, 0};
    words = 0;
    for (size_t i = 0; i < CUNDZELI_HEADER; i++)
        add(header[i]);
    add(0);
    for (size_t i = 0; i < sizeof classes / sizeof classes[0]; i++)
        add(classes[i]);
    for (uint32_t i = 0; i < 2 * 512; i++)
        add(i % 2 == 0 ? 8 : ONE);
    for (int i = 0; i < 3; i++)
        add(0);
    const uint32_t segment[CUNDZELI_SEGMENT_ROW] = {0, 0, 4 * 4096, 0, 0};
    for (size_t i = 0; i < CUNDZELI_SEGMENT_ROW; i++)
        add(segment[i]);
}

static void add_use(uint32_t kind, uint32_t inst, uint32_t slot, uint32_t class_number)
{
    const uint32_t row[CUNDZELI_USE_ROW] = {kind, inst, slot, class_number, 0, 0};
    for (size_t i = 0; i < CUNDZELI_USE_ROW; i++)
        add(row[i]);
}

/* Uses by turns in the two classes, `at_one` of them at each instruction; and what the builder is to answer. */
struct sort {
    const char *name;
    uint32_t mask, uses, at_one, answer;
};

static void make_job(const struct sort *sort)
{
    begin(sort->mask, sort->uses);
    for (uint32_t i = 0; i < sort->uses; i++)
        add_use(CUNDZELI_KIND_CLASS_USE, i / sort->at_one, i % sort->at_one, 1 + i % 2);
}

/* An answer as one number: the registers, or the number of a refusal so many times. */
#define REFUSED 10000

static const struct sort SORTS[] = {
    {"one use", 7, 1, 1, 1},
    {"two uses, a cut between them", 7, 2, 1, 2},
    {"100 uses, a cut before each but the first", 7, 100, 1, 100},
    {"4,096 uses, a cut before each but the first", 7, 4096, 1, 4096},
    {"4,096 uses, two at an instruction", 7, 4096, 2, 2049},
    {"4,096 uses at one instruction", 7, 4096, 4096, 2},
    {"4,096 uses of classes that share nothing with the top class", 1, 4096, 1, CUNDZELI_STOPPED * REFUSED},
};

/* ----------------------------------------------------------------------------------------------- calls */

static uint8_t work[CUNDZELI_BUILD_WORK];
static uint8_t *out;
static size_t out_length;
static struct cundzeli_rows rows;

/* What a thread was asked for: the call, its answer, and where its frame was. */
struct asked {
    uint32_t (*call)(void);
    uint32_t answer;
    uint8_t *frame;
};

static uint32_t call_build(void)
{
    struct cundzeli_end end = build_initial_vregs(
        job, 4 * words, out, out_length, rows.registers, rows.segments, rows.uses, rows.groups, work);
    return end.number * REFUSED + end.registers;
}

/* The blocks of the job, which stand behind the bank and three classes. */
#define BLOCKS (job + 4 * (CUNDZELI_HEADER + CUNDZELI_BANK_ROW + 3 * CUNDZELI_CLASS_ROW))

static uint32_t call_cut(void)
{
    struct cundzeli_cut cut = find_optimal_split_point(BLOCKS, 8 * 512, 0, 4095, CUNDZELI_SIDE_LATE, work);
    return cut.number * REFUSED + cut.inst;
}

/* Frequencies that rise or fall, so that the rows are found in one order or in the other. */
static void slope_blocks(int rising)
{
    for (uint32_t i = 0; i < 512; i++)
        cundzeli_put(BLOCKS, CUNDZELI_BLOCK_ROW * i + CUNDZELI_BLOCK_FREQUENCY, ONE + (rising ? i : 511 - i));
}

static uint32_t call_moves(void)
{
    size_t length = cundzeli_list_bytes(512);
    struct cundzeli_moves end = find_cut_moves(BLOCKS, 8 * 512, 0, 4095, CUNDZELI_SIDE_EARLY, out, length, work);
    return end.number * REFUSED + end.count;
}

static void *in_thread(void *data)
{
    struct asked *asked = (struct asked *)data;
    asked->frame = (uint8_t *)__builtin_frame_address(0);
    asked->answer = asked->call();
    return NULL;
}

static void fail(const char *what)
{
    perror(what);
    exit(2);
}

static void run_thread(struct asked *asked, pthread_attr_t *attributes)
{
    pthread_t thread;
    if (pthread_create(&thread, attributes, in_thread, asked) != 0)
        fail("pthread_create");
    pthread_join(thread, NULL);
}

/* ------------------------------------------------------------------------------------------- measuring */

/* The bytes of stack below the frame of the function that makes the call. */
static size_t painted(struct asked *asked)
{
    int flags = MAP_PRIVATE | MAP_ANONYMOUS;
    uint8_t *stack = (uint8_t *)mmap(NULL, MOST, PROT_READ | PROT_WRITE, flags, -1, 0);
    pthread_attr_t attributes;
    size_t low = 0;
    if (stack == MAP_FAILED)
        fail("mmap");
    memset(stack, PAINT, MOST);
    pthread_attr_init(&attributes);
    if (pthread_attr_setstack(&attributes, stack, MOST) != 0)
        fail("pthread_attr_setstack");
    run_thread(asked, &attributes);
    while (low < MOST && stack[low] == PAINT)
        low++;
    size_t used = (size_t)(asked->frame - (stack + low));
    pthread_attr_destroy(&attributes);
    munmap(stack, MOST);
    return used;
}

/* Whether the call gives the same answer on a thread with so much stack. A process of its own bears the failure. */
static int runs_on(const struct asked *asked, size_t size)
{
    int status = 0;
    pid_t child = fork();
    if (child == 0) {
        struct asked again = *asked;
        pthread_attr_t attributes;
        pthread_attr_init(&attributes);
        if (pthread_attr_setstacksize(&attributes, size) != 0)
            _exit(2);
        run_thread(&again, &attributes);
        _exit(again.answer == asked->answer ? 0 : 1);
    }
    if (child < 0 || waitpid(child, &status, 0) < 0)
        fail("fork");
    return WIFEXITED(status) && WEXITSTATUS(status) == 0;
}

/* The least stack of a thread, in KB, a multiple of 4, on which the call runs. */
static size_t least_thread(const struct asked *asked)
{
    size_t fails = 12, runs = MOST >> 10; /* 16 KB is the least that a thread can be given */
    while (runs - fails > 4) {
        size_t middle = (fails + runs) / 8 * 4;
        if (runs_on(asked, middle << 10))
            runs = middle;
        else
            fails = middle;
    }
    return runs;
}

/* One line: what was called, its stack; and whether answer and stack are as said. */
static int measure(const char *name, uint32_t (*call)(void), uint32_t answer, size_t said)
{
    struct asked asked = {call, 0, NULL};
    size_t used, least;
    call(); /* the loader finds memcpy and memset, on another stack */
    used = painted(&asked);
    least = least_thread(&asked);
    printf("%s: %zu bytes of stack, least thread %zu KB\n", name, used, least);
    if (asked.answer != answer)
        printf("    ANOTHER ANSWER: %u, not %u\n", (unsigned)asked.answer, (unsigned)answer);
    if (used > said)
        printf("    MORE THAN IS SAID: %zu\n", said);
    return asked.answer == answer && used <= said;
}

int main(void)
{
    int good = 1;
    out_length = (size_t)1 << 20;
    out = (uint8_t *)malloc(out_length);
    if (out == NULL)
        fail("malloc");
    for (size_t i = 0; i < sizeof SORTS / sizeof SORTS[0]; i++) {
        make_job(&SORTS[i]);
        rows = cundzeli_rows_for_job(job);
        good &= measure(SORTS[i].name, call_build, SORTS[i].answer, CUNDZELI_BUILD_STACK(SORTS[i].uses));
    }
    good &= measure("the cut finder, 512 blocks", call_cut, 4095, CUNDZELI_CUT_STACK);
    good &= measure("what would move a cut, 512 blocks", call_moves, 512, CUNDZELI_MOVES_STACK);
    slope_blocks(1);
    good &= measure("the same, frequencies that rise", call_moves, 512, CUNDZELI_MOVES_STACK);
    slope_blocks(0);
    good &= measure("the same, frequencies that fall", call_moves, 512, CUNDZELI_MOVES_STACK);
    free(out);
    return good ? 0 : 1;
}
